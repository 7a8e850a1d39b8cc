//! The world of the rules, as a plain program keeps it: all entries, and beside them a row for each port, message, place,
//! caller and group, where each place locates each port, and which messages wait. A part of `checker.rs`.
//!
//! A message is sent from one place alone and by one route, so that all that is known of it stands in one row.

use crate::entry::{
    Act, Answer, CLIENTS, Dest, Entry, GROUPS_PER_SITE, Layout, MEMBERS, Message, MsgId, PENDING, PORTS_PER_SITE, Tag,
    Ui,
};
use std::collections::{HashMap, VecDeque};

/// Where a port is: with an actor, on the way to one, or deleted.
#[derive(Clone, Copy, Debug, PartialEq, Eq)]
pub enum Spot {
    Held(Ui),
    Moving(Ui),
    Ended,
}

/// What became of a port.
#[derive(Debug)]
pub struct Port {
    pub capacity: u8,
    /// All ids that it accepted, of which the first `taken` were received.
    pub accepted: Vec<MsgId>,
    pub taken: usize,
    /// The places of its hops 0, 1, ..
    pub path: Vec<u16>,
    pub spot: Spot,
    /// The greatest request number that it accepted of each client.
    kept: HashMap<u32, u32>,
}

impl Port {
    fn is_last(&self, place: u16) -> bool {
        self.path.last() == Some(&place)
    }

    fn is_held_at(&self, place: u16) -> bool {
        matches!(self.spot, Spot::Held(_)) && self.is_last(place)
    }

    fn is_ended_at(&self, place: u16) -> bool {
        self.spot == Spot::Ended && self.is_last(place)
    }

    /// Whether it is on its way to the place by this hop.
    fn is_coming(&self, place: u16, hop: u64) -> bool {
        matches!(self.spot, Spot::Moving(_)) && self.is_last(place) && hop == self.path.len() as u64 - 1
    }

    pub fn waiting(&self) -> &[MsgId] {
        &self.accepted[self.taken..]
    }

    fn is_already(&self, client: u32, tag: Tag) -> bool {
        match tag {
            Tag::Request { number, .. } => self.kept.get(&client).is_some_and(|kept| number <= *kept),
            _ => false,
        }
    }

    fn finds_clients_full(&self, client: u32, tag: Tag) -> bool {
        matches!(tag, Tag::Request { .. }) && self.kept.len() >= CLIENTS && !self.kept.contains_key(&client)
    }
}

/// How far a message is on its way.
#[derive(Clone, Copy, Debug, PartialEq, Eq)]
enum Progress {
    /// A post to a group, for which no member is chosen.
    Asked,
    /// It waits where it is sent from.
    Idle,
    Tried {
        to: u16,
        hop: u64,
    },
    /// It is decided where it was tried, and the place that tried it is not told.
    Decided {
        answer: Answer,
    },
    Settled {
        answer: Answer,
    },
    /// And the place of its post heard of it.
    Reported,
}

/// A post, or the copy of one.
#[derive(Debug)]
struct Sent {
    /// The place of the post.
    posted: u16,
    /// The place that it is sent from: of a copy, where it was chosen.
    from: u16,
    tag: Tag,
    /// Where the post goes.
    dest: Dest,
    /// The port that it is for; of a post to a group, the group.
    port: Ui,
    progress: Progress,
    /// The answer of its verdict.
    verdict: Option<Answer>,
}

impl Sent {
    fn waits_for(&self, place: u16, port: Ui) -> bool {
        self.progress == Progress::Idle && self.from == place && self.port == port
    }

    /// The group of a copy; None of a direct post.
    fn route(&self) -> Option<Ui> {
        self.dest.group()
    }

    fn line(&self) -> (u16, Ui, Option<Ui>) {
        (self.from, self.port, self.route())
    }
}

/// How a message is due at a place, and with which hop.
enum Due {
    ByTry(u64),
    AtHome(u64),
}

impl Due {
    fn hop(&self) -> u64 {
        match self {
            Due::ByTry(hop) | Due::AtHome(hop) => *hop,
        }
    }
}

/// A reply that was taken.
#[derive(Clone, Copy, Debug)]
struct TakenReply {
    taker: u32,
    client: u32,
    number: u32,
}

#[derive(Clone, Debug, Default)]
struct Place {
    clock: u64,
    ports: u64,
    groups: u64,
    /// The reply that its last entry took.
    taken: Option<TakenReply>,
}

/// The request that a caller took and did not answer yet.
#[derive(Clone, Copy, Debug, PartialEq, Eq)]
pub struct Hand {
    pub client: u32,
    pub number: u32,
    pub back: Ui,
}

/// What a caller did.
#[derive(Clone, Copy, Debug, Default)]
pub struct Seat {
    pub posts: u64,
    /// Where it posted.
    pub place: Option<u16>,
    /// The greatest request number that it posted, and where the first post of it stands.
    pub requests: u32,
    pub first: usize,
    /// The number of its outstanding call.
    pub call: Option<u32>,
    pub hand: Option<Hand>,
}

#[derive(Debug, Default)]
struct Group {
    members: Vec<Ui>,
    rotation: usize,
}

#[derive(Clone, Copy, Debug, PartialEq, Eq)]
struct Location {
    to: u16,
    hop: u64,
}

pub struct World {
    layout: Layout,
    entries: Vec<Entry>,
    places: Vec<Place>,
    ports: HashMap<Ui, Port>,
    messages: HashMap<MsgId, Sent>,
    /// The messages that wait to be tried or are under way, in order, by place, port and route.
    lines: HashMap<(u16, Ui, Option<Ui>), VecDeque<MsgId>>,
    /// The posts to a group that have no choice yet, in order, by the place of the post.
    asks: HashMap<(u16, Ui), VecDeque<MsgId>>,
    locations: HashMap<(u16, Ui), Location>,
    seats: HashMap<u32, Seat>,
    groups: HashMap<Ui, Group>,
}

impl World {
    pub fn opening(layout: Layout) -> World {
        World {
            layout,
            entries: Vec::new(),
            places: vec![Place::default(); usize::from(layout.places()) + 1],
            ports: HashMap::new(),
            messages: HashMap::new(),
            lines: HashMap::new(),
            asks: HashMap::new(),
            locations: HashMap::new(),
            seats: HashMap::new(),
            groups: HashMap::new(),
        }
    }

    pub fn entries(&self) -> &[Entry] {
        &self.entries
    }

    #[allow(dead_code)]
    pub fn port(&self, port: Ui) -> Option<&Port> {
        self.ports.get(&port)
    }

    #[allow(dead_code)]
    pub fn verdict(&self, id: MsgId) -> Option<Answer> {
        self.messages.get(&id)?.verdict
    }

    /// Takes the entry as the next one, or names the rule by which it may not come next; then nothing changes.
    pub fn apply(&mut self, entry: Entry) -> Result<(), u8> {
        if !self.layout.has_place(entry.place) || entry.clock <= self.places[usize::from(entry.place)].clock {
            return Err(0);
        }
        let closes = matches!(entry.act, Act::Done { .. } | Act::Late { .. });
        let owed = self.places[usize::from(entry.place)].taken.is_some();
        if !entry.act.has_kinds() || owed && !closes || !self.take(&entry) {
            return Err(entry.act.number());
        }
        let reply = match &entry.act {
            Act::Take { id, .. } => self.reply_taken(entry.seat, *id),
            _ => None,
        };
        let place = &mut self.places[usize::from(entry.place)];
        place.clock = entry.clock;
        place.taken = reply;
        self.entries.push(entry);
        Ok(())
    }

    /// Makes of the rows what the act makes of them, where it may come next; else changes nothing, and gives false.
    fn take(&mut self, entry: &Entry) -> bool {
        let (place, seat) = (entry.place, entry.seat);
        match &entry.act {
            Act::Make { port, actor, capacity } => self.make(place, *port, *actor, *capacity),
            Act::MakeFull { actor } => self.is_home(*actor, place) && self.is_full_of_ports(place),
            Act::NoActor { actor } => !self.layout.has_actor(*actor),
            Act::NoSite { site } => !self.layout.has_site(*site),
            Act::Post { message, dest } => self.post(place, seat, message, *dest),
            Act::Accept { id, port, pos } => self.accept(place, *id, *port, *pos),
            Act::Full { id, port, len } => self.full(place, *id, *port, *len),
            Act::Already { id, port } => self.already(place, *id, *port),
            Act::ClientsFull { id, port } => self.clients_full(place, *id, *port),
            Act::Stale { id, port, tried, to, hop } => self.stale(place, *id, *port, *tried, *to, *hop),
            Act::Early { id, port, hop } => self.early(place, *id, *port, *hop),
            Act::NoPort { id, port } => self.no_port(place, *id, *port),
            Act::Elsewhere { id, port, to, hop } => self.elsewhere(place, *id, *port, *to, *hop),
            Act::NoMember { id, group } => self.no_member(place, *id, *group),
            Act::Choose { id, group, members } => self.choose(place, *id, *group, members),
            Act::Try { id, port, to, hop } => self.try_at(place, *id, *port, *to, *hop),
            Act::Told { id, answer } => self.told(place, *id, *answer),
            Act::Heard { id, answer } => self.heard(place, *id, *answer),
            Act::Take { port, pos, id } => self.receive(place, seat, *port, *pos, *id),
            Act::Done { number } => self.done(place, seat, *number),
            Act::Late { number } => self.late(place, seat, *number),
            Act::Empty { port } => self.held(place, *port).is_some_and(|port| port.waiting().is_empty()),
            Act::NotHere { .. } => true,
            Act::Rehome { port, actor } => self.rehome(place, *port, *actor),
            Act::Depart { port, to, actor, hop } => self.depart(place, *port, *to, *actor, *hop),
            Act::Arrive { port, hop } => self.arrive(place, *port, *hop),
            Act::GroupMake { group } => self.make_group(place, *group),
            Act::GroupsFull { site } => {
                self.layout.has_site(*site)
                    && self.layout.first_place(*site) == place
                    && self.places[usize::from(place)].groups == GROUPS_PER_SITE
            }
            Act::Join { group, port } => self.join(place, *group, *port),
            Act::Leave { group, port } => self.leave(place, *group, *port),
            Act::NoGroup { group } => !self.groups.contains_key(group),
            Act::There { group, port } => self.members(place, *group).is_some_and(|members| members.contains(port)),
            Act::NotThere { group, port } => self.members(place, *group).is_some_and(|members| !members.contains(port)),
            Act::MembersFull { group } => self.members(place, *group).is_some_and(|members| members.len() == MEMBERS),
            Act::Outstanding { number } => self.call(seat) == Some(*number),
            Act::NoCall => self.call(seat).is_none(),
            Act::NoRequest => self.seats.get(&seat).is_none_or(|row| row.hand.is_none()),
            Act::Cancel { number } => self.cancel(seat, *number),
            Act::Delete { port, discarded } => self.delete(place, *port, discarded),
            Act::Gone { id, port } => self.gone(place, *id, *port),
        }
    }

    // Ports.

    fn is_home(&self, actor: Ui, place: u16) -> bool {
        self.layout.has_actor(actor) && self.layout.place_at(actor.site(), actor) == place
    }

    fn is_full_of_ports(&self, place: u16) -> bool {
        self.places[usize::from(place)].ports >= PORTS_PER_SITE / u64::from(self.layout.turns)
    }

    fn make(&mut self, place: u16, port: Ui, actor: Ui, capacity: u8) -> bool {
        let turns = u64::from(self.layout.turns);
        let next = self.places[usize::from(place)].ports * turns + u64::from(place - 1) % turns + 1;
        let may = self.is_home(actor, place)
            && (1..=PENDING).contains(&capacity)
            && !self.is_full_of_ports(place)
            && port.site() == actor.site()
            && port.number() == next;
        if may {
            self.places[usize::from(place)].ports += 1;
            let row = Port {
                capacity,
                accepted: Vec::new(),
                taken: 0,
                path: vec![place],
                spot: Spot::Held(actor),
                kept: HashMap::new(),
            };
            self.ports.insert(port, row);
        }
        may
    }

    /// The port, where it is held at the place.
    fn held(&self, place: u16, port: Ui) -> Option<&Port> {
        self.ports.get(&port).filter(|port| port.is_held_at(place))
    }

    fn held_mut(&mut self, place: u16, port: Ui) -> Option<&mut Port> {
        self.ports.get_mut(&port).filter(|port| port.is_held_at(place))
    }

    fn receive(&mut self, place: u16, seat: u32, port: Ui, pos: u64, id: MsgId) -> bool {
        let Some(row) = self.held_mut(place, port) else {
            return false;
        };
        if pos != row.taken as u64 || row.accepted.get(row.taken) != Some(&id) {
            return false;
        }
        row.taken += 1;
        if let Tag::Request { number, back } = self.tag_of(id) {
            self.seats.entry(seat).or_default().hand = Some(Hand { client: id.seat, number, back });
        }
        true
    }

    fn reply_taken(&self, taker: u32, id: MsgId) -> Option<TakenReply> {
        match self.tag_of(id) {
            Tag::Reply { client, number } => Some(TakenReply { taker, client, number }),
            _ => None,
        }
    }

    fn rehome(&mut self, place: u16, port: Ui, actor: Ui) -> bool {
        if !self.layout.has_actor(actor) || actor.site() != self.layout.site_of(place) {
            return false;
        }
        let Some(row) = self.held_mut(place, port) else {
            return false;
        };
        row.spot = Spot::Held(actor);
        true
    }

    fn depart(&mut self, place: u16, port: Ui, to: u16, actor: Ui, hop: u64) -> bool {
        let may = self.layout.has_actor(actor)
            && actor.site() != self.layout.site_of(place)
            && to == self.layout.place_at(actor.site(), port);
        if !may {
            return false;
        }
        let Some(row) = self.held_mut(place, port) else {
            return false;
        };
        if hop != row.path.len() as u64 {
            return false;
        }
        row.path.push(to);
        row.spot = Spot::Moving(actor);
        self.learn(place, port, Location { to, hop });
        true
    }

    fn arrive(&mut self, place: u16, port: Ui, hop: u64) -> bool {
        let Some(row) = self.ports.get_mut(&port).filter(|port| port.is_coming(place, hop)) else {
            return false;
        };
        if let Spot::Moving(actor) = row.spot {
            row.spot = Spot::Held(actor);
        }
        self.learn(place, port, Location { to: place, hop });
        true
    }

    fn delete(&mut self, place: u16, port: Ui, discarded: &[MsgId]) -> bool {
        let Some(row) = self.held_mut(place, port) else {
            return false;
        };
        if row.waiting() != discarded {
            return false;
        }
        row.spot = Spot::Ended;
        true
    }

    // Where ports are.

    fn located(&self, place: u16, port: Ui) -> Location {
        match self.locations.get(&(place, port)) {
            Some(location) => *location,
            None if self.layout.has_site(port.site()) => {
                Location { to: self.layout.place_at(port.site(), port), hop: 0 }
            }
            None => Location { to: 0, hop: 0 },
        }
    }

    fn learn(&mut self, place: u16, port: Ui, location: Location) {
        if self.located(place, port).hop < location.hop {
            self.locations.insert((place, port), location);
        }
    }

    fn is_on_site(&self, site: Option<u16>, place: u16) -> bool {
        site.is_none_or(|site| self.layout.site_of(place) == site)
    }

    // Callers.

    fn call(&self, seat: u32) -> Option<u32> {
        self.seats.get(&seat)?.call
    }

    /// Whether the message may have its tag: a new request, the outstanding one again, or the reply to the one in hand.
    fn may_tag(&self, row: &Seat, message: &Message, dest: Dest) -> bool {
        match message.tag {
            Tag::Plain => true,
            Tag::Request { number, .. } => {
                matches!(dest, Dest::Port(_))
                    && match row.call {
                        None => u64::from(number) == u64::from(row.requests) + 1,
                        Some(call) => call == number && self.repeats(row.first, message, dest),
                    }
            }
            Tag::Reply { client, number } => match dest {
                Dest::Port(back) => row.hand == Some(Hand { client, number, back }),
                _ => false,
            },
        }
    }

    /// Whether the request is posted as the entry posted it.
    fn repeats(&self, first: usize, message: &Message, dest: Dest) -> bool {
        match &self.entries[first].act {
            Act::Post { message: posted, dest: to } => {
                posted.tag == message.tag && *to == dest && posted.body == message.body
            }
            _ => false,
        }
    }

    fn post(&mut self, place: u16, seat: u32, message: &Message, dest: Dest) -> bool {
        let new = Seat::default();
        let row = self.seats.get(&seat).unwrap_or(&new);
        let id = message.id;
        let may = id.seat == seat
            && u64::from(id.number) == row.posts + 1
            && id.copy == 0
            && row.place.is_none_or(|at| at == place)
            && self.may_tag(row, message, dest);
        if !may {
            return false;
        }
        let index = self.entries.len();
        let row = self.seats.entry(seat).or_default();
        row.posts += 1;
        row.place = Some(place);
        match message.tag {
            Tag::Plain => {}
            Tag::Request { number, .. } => {
                if number > row.requests {
                    row.requests = number;
                    row.first = index;
                }
                row.call = Some(number);
            }
            Tag::Reply { .. } => row.hand = None,
        }
        self.send(place, message, dest);
        true
    }

    /// Puts the post where it waits.
    fn send(&mut self, place: u16, message: &Message, dest: Dest) {
        let (port, progress) = match dest {
            Dest::Port(port) => {
                self.lines.entry((place, port, None)).or_default().push_back(message.id);
                (port, Progress::Idle)
            }
            Dest::All(group) | Dest::One(group) | Dest::OneAt(group, _) => {
                self.asks.entry((place, group)).or_default().push_back(message.id);
                (group, Progress::Asked)
            }
        };
        let sent = Sent { posted: place, from: place, tag: message.tag, dest, port, progress, verdict: None };
        self.messages.insert(message.id, sent);
    }

    fn done(&mut self, place: u16, seat: u32, number: u32) -> bool {
        let may = match self.places[usize::from(place)].taken {
            Some(reply) => reply.taker == seat && reply.number == number && self.ends_call(seat, reply),
            None => false,
        };
        may && self.cancel(seat, number)
    }

    fn late(&self, place: u16, seat: u32, number: u32) -> bool {
        match self.places[usize::from(place)].taken {
            Some(reply) => reply.taker == seat && reply.number == number && !self.ends_call(seat, reply),
            None => false,
        }
    }

    fn ends_call(&self, seat: u32, reply: TakenReply) -> bool {
        reply.client == seat && self.call(seat) == Some(reply.number)
    }

    fn cancel(&mut self, seat: u32, number: u32) -> bool {
        match self.seats.get_mut(&seat) {
            Some(row) if row.call == Some(number) => {
                row.call = None;
                true
            }
            _ => false,
        }
    }

    // Messages.

    fn tag_of(&self, id: MsgId) -> Tag {
        self.messages.get(&id).map_or(Tag::Plain, |sent| sent.tag)
    }

    /// Whether the message is the next to go from the place to the port.
    fn is_first(&self, place: u16, id: MsgId, port: Ui, sent: &Sent) -> bool {
        sent.waits_for(place, port) && self.lines.get(&sent.line()).and_then(VecDeque::front) == Some(&id)
    }

    /// How the message is due at the place.
    fn due(&self, place: u16, id: MsgId, port: Ui, sent: &Sent) -> Option<Due> {
        match sent.progress {
            Progress::Tried { to, hop } => (to == place && sent.port == port).then_some(Due::ByTry(hop)),
            _ => {
                let location = self.located(place, port);
                let may = self.is_first(place, id, port, sent)
                    && location.to == place
                    && self.is_on_site(sent.dest.site(), place);
                may.then_some(Due::AtHome(location.hop))
            }
        }
    }

    /// The decision of the place: where the message was tried it is to be told, and where it waits it is settled.
    fn decide(&mut self, id: MsgId, answer: Answer) {
        let Some(sent) = self.messages.get_mut(&id) else {
            return;
        };
        if !matches!(answer, Answer::Stale { .. }) && sent.verdict.is_none() {
            sent.verdict = Some(answer);
        }
        if let Progress::Tried { .. } = sent.progress {
            sent.progress = Progress::Decided { answer };
        } else {
            sent.progress = Progress::Settled { answer };
            let line = sent.line();
            self.go_on(line);
        }
    }

    /// Takes the first message out of its line.
    fn go_on(&mut self, line: (u16, Ui, Option<Ui>)) {
        if let Some(line) = self.lines.get_mut(&line) {
            line.pop_front();
        }
    }

    /// The message and its port, where it is due and the port is held here.
    fn meeting(&self, place: u16, id: MsgId, port: Ui) -> Option<(&Sent, &Port)> {
        let sent = self.messages.get(&id)?;
        self.due(place, id, port, sent)?;
        Some((sent, self.held(place, port)?))
    }

    /// The port, where it may take in the message or be full.
    fn entering(&self, place: u16, id: MsgId, port: Ui) -> Option<(&Sent, &Port)> {
        let (sent, row) = self.meeting(place, id, port)?;
        let may = self.is_on_site(sent.dest.site(), place)
            && !row.is_already(id.seat, sent.tag)
            && !row.finds_clients_full(id.seat, sent.tag);
        may.then_some((sent, row))
    }

    fn accept(&mut self, place: u16, id: MsgId, port: Ui, pos: u64) -> bool {
        let Some((sent, row)) = self.entering(place, id, port) else {
            return false;
        };
        if row.waiting().len() >= usize::from(row.capacity) || pos != row.accepted.len() as u64 {
            return false;
        }
        let tag = sent.tag;
        if let Some(row) = self.ports.get_mut(&port) {
            row.accepted.push(id);
            if let Tag::Request { number, .. } = tag {
                row.kept.insert(id.seat, number);
            }
        }
        self.decide(id, Answer::Accepted { pos });
        true
    }

    fn full(&mut self, place: u16, id: MsgId, port: Ui, len: u8) -> bool {
        let may = self.entering(place, id, port).is_some_and(|(_, row)| {
            row.waiting().len() == usize::from(row.capacity) && row.waiting().len() == usize::from(len)
        });
        if may {
            self.decide(id, Answer::Full { len });
        }
        may
    }

    fn already(&mut self, place: u16, id: MsgId, port: Ui) -> bool {
        let may = self.meeting(place, id, port).is_some_and(|(sent, row)| row.is_already(id.seat, sent.tag));
        if may {
            self.decide(id, Answer::Already);
        }
        may
    }

    fn clients_full(&mut self, place: u16, id: MsgId, port: Ui) -> bool {
        let may = self.meeting(place, id, port).is_some_and(|(sent, row)| row.finds_clients_full(id.seat, sent.tag));
        if may {
            self.decide(id, Answer::ClientsFull);
        }
        may
    }

    fn stale(&mut self, place: u16, id: MsgId, port: Ui, tried: u64, to: u16, hop: u64) -> bool {
        let may = self.messages.get(&id).is_some_and(|sent| {
            self.due(place, id, port, sent).is_some_and(|due| due.hop() == tried)
                && self.held(place, port).is_none()
                && self.located(place, port) == Location { to, hop }
                && tried < hop
                && to != place
                && sent.dest.site().is_none()
        });
        if may {
            self.decide(id, Answer::Stale { to, hop });
        }
        may
    }

    fn early(&mut self, place: u16, id: MsgId, port: Ui, hop: u64) -> bool {
        let location = self.located(place, port);
        let is_early = |tried: u64| {
            location == Location { to: place, hop } && tried < hop || location.hop <= tried && hop == tried && 0 < tried
        };
        let due = self.messages.get(&id).and_then(|sent| self.due(place, id, port, sent));
        let may = due.is_some_and(|due| is_early(due.hop()))
            && self.ports.get(&port).is_some_and(|row| row.is_coming(place, hop));
        if may {
            self.decide(id, Answer::Early { hop });
        }
        may
    }

    fn no_port(&mut self, place: u16, id: MsgId, port: Ui) -> bool {
        let may = self.messages.get(&id).is_some_and(|sent| {
            let unmade =
                self.due(place, id, port, sent).is_some_and(|due| due.hop() == 0) && !self.ports.contains_key(&port);
            unmade || !self.layout.has_site(port.site()) && self.is_first(place, id, port, sent)
        });
        if may {
            self.decide(id, Answer::NoPort);
        }
        may
    }

    fn elsewhere(&mut self, place: u16, id: MsgId, port: Ui, to: u16, hop: u64) -> bool {
        let may = self.messages.get(&id).is_some_and(|sent| {
            sent.dest.site().is_some()
                && self.located(place, port) == Location { to, hop }
                && (self.is_off_site(place, id, port, to, sent) || self.has_left(place, id, port, to, hop, sent))
        });
        if may {
            self.decide(id, Answer::Elsewhere { to, hop });
        }
        may
    }

    /// Whether the message would go from here to a place that is not on its site.
    fn is_off_site(&self, place: u16, id: MsgId, port: Ui, to: u16, sent: &Sent) -> bool {
        self.layout.has_site(port.site())
            && !self.is_on_site(sent.dest.site(), to)
            && self.is_first(place, id, port, sent)
    }

    /// Whether the message was tried here, and the port went on.
    fn has_left(&self, place: u16, id: MsgId, port: Ui, to: u16, hop: u64, sent: &Sent) -> bool {
        matches!(self.due(place, id, port, sent), Some(Due::ByTry(tried)) if tried < hop)
            && self.held(place, port).is_none()
            && to != place
    }

    fn gone(&mut self, place: u16, id: MsgId, port: Ui) -> bool {
        let may = self.messages.get(&id).is_some_and(|sent| self.due(place, id, port, sent).is_some())
            && self.ports.get(&port).is_some_and(|row| row.is_ended_at(place));
        if may {
            self.decide(id, Answer::Gone);
        }
        may
    }

    fn try_at(&mut self, place: u16, id: MsgId, port: Ui, to: u16, hop: u64) -> bool {
        let may = self.messages.get(&id).is_some_and(|sent| {
            self.is_first(place, id, port, sent)
                && self.layout.has_site(port.site())
                && self.located(place, port) == Location { to, hop }
                && to != place
                && self.is_on_site(sent.dest.site(), to)
        });
        if may && let Some(sent) = self.messages.get_mut(&id) {
            sent.progress = Progress::Tried { to, hop };
        }
        may
    }

    fn told(&mut self, place: u16, id: MsgId, answer: Answer) -> bool {
        let Some(sent) = self.messages.get_mut(&id) else {
            return false;
        };
        if sent.from != place || sent.progress != (Progress::Decided { answer }) {
            return false;
        }
        let port = sent.port;
        if let Answer::Stale { to, hop } = answer {
            sent.progress = Progress::Idle;
            self.learn(place, port, Location { to, hop });
            return true;
        }
        sent.progress = Progress::Settled { answer };
        let line = sent.line();
        self.go_on(line);
        if let Answer::Elsewhere { to, hop } = answer {
            self.learn(place, port, Location { to, hop });
        }
        true
    }

    fn heard(&mut self, place: u16, id: MsgId, answer: Answer) -> bool {
        let layout = self.layout;
        let Some(sent) = self.messages.get_mut(&id) else {
            return false;
        };
        let home = sent.dest.group().and_then(|group| layout.group_place(group));
        let may = sent.posted == place
            && home.is_some_and(|home| home != place)
            && sent.progress == (Progress::Settled { answer });
        if may {
            sent.progress = Progress::Reported;
        }
        may
    }

    // Groups.

    /// The members of the group, where it is made and the place is its own.
    fn members(&self, place: u16, group: Ui) -> Option<&Vec<Ui>> {
        let row = self.groups.get(&group)?;
        (self.layout.group_place(group) == Some(place)).then_some(&row.members)
    }

    fn make_group(&mut self, place: u16, group: Ui) -> bool {
        let made = &mut self.places[usize::from(place)].groups;
        let may = self.layout.group_place(group) == Some(place)
            && group.number() <= GROUPS_PER_SITE
            && group.number() == *made + 1;
        if may {
            *made += 1;
            self.groups.insert(group, Group::default());
        }
        may
    }

    fn join(&mut self, place: u16, group: Ui, port: Ui) -> bool {
        let may = self.members(place, group).is_some_and(|members| members.len() < MEMBERS && !members.contains(&port));
        if may && let Some(row) = self.groups.get_mut(&group) {
            row.members.push(port);
        }
        may
    }

    fn leave(&mut self, place: u16, group: Ui, port: Ui) -> bool {
        let Some(members) = self.members(place, group) else {
            return false;
        };
        let Some(at) = members.iter().position(|member| *member == port) else {
            return false;
        };
        if let Some(row) = self.groups.get_mut(&group) {
            row.members.remove(at);
            if at < row.rotation {
                row.rotation -= 1;
            }
            if row.rotation >= row.members.len() {
                row.rotation = 0;
            }
        }
        true
    }

    /// The place of the post and the members that it chooses, where its turn to be chosen for at the place has come.
    fn choosing(&self, place: u16, id: MsgId, group: Ui) -> Option<(u16, &[Ui])> {
        let sent = self.messages.get(&id)?;
        let may = sent.progress == Progress::Asked
            && sent.dest.group() == Some(group)
            && self.layout.group_place(group).unwrap_or(sent.posted) == place
            && self.asks.get(&(sent.posted, group)).and_then(VecDeque::front) == Some(&id);
        may.then(|| (sent.posted, self.choice(place, sent.dest)))
    }

    /// The members that a post to this destination chooses.
    fn choice(&self, place: u16, dest: Dest) -> &[Ui] {
        let Some(row) = dest.group().and_then(|group| self.groups.get(&group)) else {
            return &[];
        };
        let members = &row.members;
        let mut in_turn = (row.rotation..members.len()).chain(0..row.rotation);
        let chosen = match dest {
            Dest::Port(_) => None,
            Dest::All(_) => return members,
            Dest::One(_) => in_turn.next(),
            Dest::OneAt(_, site) => in_turn.find(|at| self.is_at_site(place, site, members[*at])),
        };
        match chosen {
            Some(at) => &members[at..=at],
            None => &[],
        }
    }

    /// Whether the place locates the port on the site.
    fn is_at_site(&self, place: u16, site: u16, port: Ui) -> bool {
        self.layout.has_site(port.site()) && self.layout.site_of(self.located(place, port).to) == site
    }

    /// The post has its choice.
    fn chosen(&mut self, id: MsgId, posted: u16, group: Ui, answer: Answer) {
        if let Some(sent) = self.messages.get_mut(&id) {
            sent.progress = Progress::Settled { answer };
            if answer == Answer::NoMember {
                sent.verdict = Some(answer);
            }
        }
        if let Some(line) = self.asks.get_mut(&(posted, group)) {
            line.pop_front();
        }
    }

    fn no_member(&mut self, place: u16, id: MsgId, group: Ui) -> bool {
        match self.choosing(place, id, group) {
            Some((posted, choice)) if choice.is_empty() => {
                self.chosen(id, posted, group, Answer::NoMember);
                true
            }
            _ => false,
        }
    }

    fn choose(&mut self, place: u16, id: MsgId, group: Ui, members: &[Ui]) -> bool {
        let Some((posted, choice)) = self.choosing(place, id, group) else {
            return false;
        };
        if members.is_empty() || members != choice {
            return false;
        }
        self.chosen(id, posted, group, Answer::Chosen { count: members.len() as u16 });
        if let ([member], Some(row)) = (members, self.groups.get_mut(&group)) {
            let at = row.members.iter().position(|port| port == member).unwrap_or(0) + 1;
            row.rotation = if at < row.members.len() { at } else { 0 };
        }
        let Some(post) = self.messages.get(&id) else {
            return false;
        };
        let (tag, dest) = (post.tag, post.dest);
        for (i, port) in members.iter().enumerate() {
            let copy = MsgId { copy: i as u16 + 1, ..id };
            let progress = Progress::Idle;
            let sent = Sent { posted, from: place, tag, dest, port: *port, progress, verdict: None };
            self.lines.entry(sent.line()).or_default().push_back(copy);
            self.messages.insert(copy, sent);
        }
        true
    }
}
