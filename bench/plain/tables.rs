//! The world of the rules once more, with a hash map for each table of `crates/checker_rows` and `crates/checker_ledger`, by
//! the same keys: what an act needs is read from them, and then each table follows the entry. A part of `checker.rs`.

use crate::entry::{
    Act, Answer, CLIENTS, Dest, Entry, GROUPS_PER_SITE, Layout, MEMBERS, Message, MsgId, PENDING, PORTS_PER_SITE, Tag,
    Ui,
};
use crate::world::{Hand, Seat, Spot};
use std::collections::{HashMap, VecDeque};

#[derive(Debug)]
struct Port {
    capacity: u8,
    accepted: Vec<MsgId>,
    taken: usize,
    path: Vec<u16>,
    spot: Spot,
}

impl Port {
    fn is_held_at(&self, place: u16) -> bool {
        matches!(self.spot, Spot::Held(_)) && self.path.last() == Some(&place)
    }

    fn is_ended_at(&self, place: u16) -> bool {
        self.spot == Spot::Ended && self.path.last() == Some(&place)
    }

    fn is_coming(&self, place: u16, hop: u64) -> bool {
        matches!(self.spot, Spot::Moving(_)) && self.path.last() == Some(&place) && hop == self.path.len() as u64 - 1
    }

    fn waiting(&self) -> &[MsgId] {
        &self.accepted[self.taken..]
    }

    fn change(&mut self, act: &Act) {
        match act {
            Act::Accept { id, .. } => self.accepted.push(*id),
            Act::Take { .. } => self.taken += 1,
            Act::Rehome { actor, .. } => self.spot = Spot::Held(*actor),
            Act::Depart { to, actor, .. } => {
                self.path.push(*to);
                self.spot = Spot::Moving(*actor);
            }
            Act::Arrive { .. } => {
                if let Spot::Moving(actor) = self.spot {
                    self.spot = Spot::Held(actor);
                }
            }
            Act::Delete { .. } => self.spot = Spot::Ended,
            _ => {}
        }
    }
}

#[derive(Clone, Copy, Debug, Default)]
enum Progress {
    #[default]
    Idle,
    Asked {
        from: u16,
        dest: Dest,
    },
    Tried {
        from: u16,
        port: Ui,
        to: u16,
        hop: u64,
    },
    Decided {
        from: u16,
        answer: Answer,
    },
    Settled {
        answer: Answer,
    },
    Reported,
}

/// A post without its body.
#[derive(Clone, Copy, Debug)]
struct Posting {
    place: u16,
    tag: Tag,
    dest: Dest,
}

#[derive(Clone, Copy, Debug, Default)]
struct MessageRow {
    progress: Progress,
    verdict: Option<Answer>,
    post: Option<Posting>,
}

#[derive(Clone, Copy, Debug, Default)]
struct MarkRow {
    settled: bool,
    tried: bool,
    chosen: bool,
}

#[derive(Clone, Copy, Debug)]
struct Sent {
    port: Ui,
    route: Option<Ui>,
}

#[derive(Clone, Copy, Debug, PartialEq, Eq)]
struct Location {
    to: u16,
    hop: u64,
}

#[derive(Clone, Copy, Debug, Default)]
struct PlaceRow {
    clock: u64,
    ports: u64,
    groups: u64,
    /// Who took which message by the last entry.
    taken: Option<(u32, MsgId)>,
}

#[derive(Debug, Default)]
struct Group {
    made: bool,
    members: Vec<Ui>,
    rotation: usize,
}

#[derive(Clone, Copy)]
struct TakenReply {
    taker: u32,
    client: u32,
    number: u32,
}

#[derive(Clone, Copy)]
enum Due {
    ByTry(u64),
    AtHome(u64),
}

impl Due {
    fn hop(self) -> u64 {
        match self {
            Due::ByTry(hop) | Due::AtHome(hop) => hop,
        }
    }
}

type MessageAt = (u16, MsgId);

type NameAt = (u16, Ui);

type Line = (u16, Ui, Option<Ui>);

pub struct World {
    layout: Layout,
    entries: Vec<Entry>,
    ports: HashMap<Ui, Port>,
    messages: HashMap<MsgId, MessageRow>,
    marks: HashMap<MessageAt, MarkRow>,
    sends: HashMap<MessageAt, Sent>,
    lines: HashMap<Line, VecDeque<MsgId>>,
    asks: HashMap<NameAt, VecDeque<MsgId>>,
    locations: HashMap<NameAt, Location>,
    places: HashMap<u16, PlaceRow>,
    seats: HashMap<u32, Seat>,
    groups: HashMap<NameAt, Group>,
    kept: HashMap<(Ui, u32), u32>,
    clients: HashMap<Ui, usize>,
}

/// The port that the act is about, where it stands only where that port is held, or comes to be held.
fn held_port(act: &Act) -> Option<Ui> {
    match act {
        Act::Make { port, .. }
        | Act::Accept { port, .. }
        | Act::Full { port, .. }
        | Act::Already { port, .. }
        | Act::ClientsFull { port, .. }
        | Act::Take { port, .. }
        | Act::Empty { port }
        | Act::Rehome { port, .. }
        | Act::Depart { port, .. }
        | Act::Arrive { port, .. }
        | Act::Delete { port, .. } => Some(*port),
        _ => None,
    }
}

/// The answer of a decision.
fn decision(act: &Act) -> Option<Answer> {
    match act {
        Act::Accept { pos, .. } => Some(Answer::Accepted { pos: *pos }),
        Act::Full { len, .. } => Some(Answer::Full { len: *len }),
        Act::Already { .. } => Some(Answer::Already),
        Act::ClientsFull { .. } => Some(Answer::ClientsFull),
        Act::Stale { to, hop, .. } => Some(Answer::Stale { to: *to, hop: *hop }),
        Act::Early { hop, .. } => Some(Answer::Early { hop: *hop }),
        Act::NoPort { .. } => Some(Answer::NoPort),
        Act::Elsewhere { to, hop, .. } => Some(Answer::Elsewhere { to: *to, hop: *hop }),
        Act::Gone { .. } => Some(Answer::Gone),
        _ => None,
    }
}

/// The answer of a verdict: of a decision other than Stale, or that there is no member.
fn verdict(act: &Act) -> Option<Answer> {
    match act {
        Act::NoMember { .. } => Some(Answer::NoMember),
        _ => decision(act).filter(|answer| !matches!(answer, Answer::Stale { .. })),
    }
}

fn settled(answer: Answer) -> Progress {
    match answer {
        Answer::Stale { .. } => Progress::Idle,
        _ => Progress::Settled { answer },
    }
}

/// How far the message is after an act about it at the place.
fn progress_after(place: u16, act: &Act, progress: Progress) -> Progress {
    match act {
        Act::Post { dest: Dest::Port(_), .. } => Progress::Idle,
        Act::Post { dest, .. } => Progress::Asked { from: place, dest: *dest },
        Act::Choose { members, .. } => Progress::Settled { answer: Answer::Chosen { count: members.len() as u16 } },
        Act::NoMember { .. } => Progress::Settled { answer: Answer::NoMember },
        Act::Try { port, to, hop, .. } => Progress::Tried { from: place, port: *port, to: *to, hop: *hop },
        Act::Told { answer, .. } => match progress {
            Progress::Decided { .. } => settled(*answer),
            _ => progress,
        },
        Act::Heard { .. } => Progress::Reported,
        _ => match (decision(act), progress) {
            (Some(answer), Progress::Tried { from, .. }) => Progress::Decided { from, answer },
            (Some(answer), Progress::Idle) => settled(answer),
            _ => progress,
        },
    }
}

impl World {
    pub fn opening(layout: Layout) -> World {
        World {
            layout,
            entries: Vec::new(),
            ports: HashMap::new(),
            messages: HashMap::new(),
            marks: HashMap::new(),
            sends: HashMap::new(),
            lines: HashMap::new(),
            asks: HashMap::new(),
            locations: HashMap::new(),
            places: HashMap::new(),
            seats: HashMap::new(),
            groups: HashMap::new(),
            kept: HashMap::new(),
            clients: HashMap::new(),
        }
    }

    pub fn entries(&self) -> &[Entry] {
        &self.entries
    }

    /// Takes the entry as the next one, or names the rule by which it may not come next; then nothing changes.
    pub fn apply(&mut self, entry: Entry) -> Result<(), u8> {
        if !self.layout.has_place(entry.place) || entry.clock <= self.place(entry.place).clock {
            return Err(0);
        }
        let closes = matches!(entry.act, Act::Done { .. } | Act::Late { .. });
        let owed = self.just_taken(entry.place).is_some();
        if !entry.act.has_kinds() || owed && !closes || !self.act_may(&entry) {
            return Err(entry.act.number());
        }
        self.follow(&entry);
        self.entries.push(entry);
        Ok(())
    }

    // What is read from the tables.

    fn place(&self, place: u16) -> PlaceRow {
        self.places.get(&place).copied().unwrap_or_default()
    }

    fn seat(&self, seat: u32) -> Seat {
        self.seats.get(&seat).copied().unwrap_or_default()
    }

    fn message(&self, id: MsgId) -> MessageRow {
        self.messages.get(&id).copied().unwrap_or_default()
    }

    fn mark(&self, place: u16, id: MsgId) -> MarkRow {
        self.marks.get(&(place, id)).copied().unwrap_or_default()
    }

    fn post_of(&self, id: MsgId) -> Option<Posting> {
        self.messages.get(&MsgId { copy: 0, ..id })?.post
    }

    fn tag_of(&self, id: MsgId) -> Tag {
        self.post_of(id).map_or(Tag::Plain, |post| post.tag)
    }

    fn site_asked(&self, id: MsgId) -> Option<u16> {
        self.post_of(id)?.dest.site()
    }

    fn just_taken(&self, place: u16) -> Option<TakenReply> {
        let (taker, id) = self.place(place).taken?;
        match self.tag_of(id) {
            Tag::Reply { client, number } => Some(TakenReply { taker, client, number }),
            _ => None,
        }
    }

    fn located(&self, place: u16, port: Ui) -> Location {
        match self.locations.get(&(place, port)) {
            Some(location) => *location,
            None if self.layout.has_site(port.site()) => {
                Location { to: self.layout.place_at(port.site(), port), hop: 0 }
            }
            None => Location { to: 0, hop: 0 },
        }
    }

    fn is_already(&self, port: Ui, id: MsgId) -> bool {
        match self.tag_of(id) {
            Tag::Request { number, .. } => self.kept.get(&(port, id.seat)).is_some_and(|kept| number <= *kept),
            _ => false,
        }
    }

    fn finds_clients_full(&self, port: Ui, id: MsgId) -> bool {
        match self.tag_of(id) {
            Tag::Request { .. } => {
                !self.kept.contains_key(&(port, id.seat))
                    && self.clients.get(&port).is_some_and(|clients| CLIENTS <= *clients)
            }
            _ => false,
        }
    }

    /// The first message of the line that is open at the place.
    fn first_open(&self, line: Option<&VecDeque<MsgId>>, is_open: impl Fn(MsgId) -> bool) -> Option<MsgId> {
        line?.iter().copied().find(|id| is_open(*id))
    }

    fn is_first(&self, place: u16, id: MsgId, port: Ui) -> bool {
        let Some(sent) = self.sends.get(&(place, id)) else {
            return false;
        };
        let line = self.lines.get(&(place, port, sent.route));
        sent.port == port
            && self.first_open(line, |id| !self.mark(place, id).settled) == Some(id)
            && !self.mark(place, id).tried
    }

    fn members(&self, place: u16, group: Ui) -> &[Ui] {
        self.groups.get(&(place, group)).map_or(&[], |row| &row.members)
    }

    fn is_group_at(&self, place: u16, group: Ui) -> bool {
        self.layout.group_place(group) == Some(place) && self.groups.get(&(place, group)).is_some_and(|row| row.made)
    }

    fn is_group(&self, group: Ui) -> bool {
        self.layout.group_place(group).is_some_and(|place| self.is_group_at(place, group))
    }

    // What each act needs.

    fn act_may(&self, entry: &Entry) -> bool {
        let (place, seat) = (entry.place, entry.seat);
        match &entry.act {
            Act::Make { port, actor, capacity } => {
                self.is_home(*actor, place)
                    && (1..=PENDING).contains(capacity)
                    && !self.is_full_of_ports(place)
                    && port.site() == actor.site()
                    && port.number() == self.next_number(place)
            }
            Act::MakeFull { actor } => self.is_home(*actor, place) && self.is_full_of_ports(place),
            Act::NoActor { actor } => !self.layout.has_actor(*actor),
            Act::NoSite { site } => !self.layout.has_site(*site),
            Act::Post { message, dest } => self.may_post(place, seat, message, *dest),
            Act::Accept { id, port, pos } => {
                self.may_enter(place, *id, *port)
                    && self.ports.get(port).is_some_and(|port| {
                        port.waiting().len() < usize::from(port.capacity) && *pos == port.accepted.len() as u64
                    })
            }
            Act::Full { id, port, len } => {
                self.may_enter(place, *id, *port)
                    && self.ports.get(port).is_some_and(|port| {
                        port.waiting().len() == usize::from(port.capacity) && port.waiting().len() == usize::from(*len)
                    })
            }
            Act::Already { id, port } => self.meets(place, *id, *port) && self.is_already(*port, *id),
            Act::ClientsFull { id, port } => self.meets(place, *id, *port) && self.finds_clients_full(*port, *id),
            Act::Stale { id, port, tried, to, hop } => {
                self.due(place, *id, *port).is_some_and(|due| due.hop() == *tried)
                    && !self.is_held_at(place, *port)
                    && self.located(place, *port) == Location { to: *to, hop: *hop }
                    && tried < hop
                    && *to != place
                    && self.site_asked(*id).is_none()
            }
            Act::Early { id, port, hop } => self.may_be_early(place, *id, *port, *hop),
            Act::NoPort { id, port } => {
                let due = self.due(place, *id, *port);
                due.is_some_and(|due| due.hop() == 0) && !self.ports.contains_key(port)
                    || !self.layout.has_site(port.site()) && self.is_first(place, *id, *port)
            }
            Act::Elsewhere { id, port, to, hop } => self.may_be_elsewhere(place, *id, *port, *to, *hop),
            Act::NoMember { id, group } => self.choice_for(place, *id, *group).is_some_and(<[Ui]>::is_empty),
            Act::Choose { id, group, members } => {
                !members.is_empty() && self.choice_for(place, *id, *group) == Some(members)
            }
            Act::Try { id, port, to, hop } => {
                self.is_to_go(place, *id, *port, *to)
                    && self.located(place, *port).hop == *hop
                    && *to != place
                    && self.is_on_site(self.site_asked(*id), *to)
            }
            Act::Told { id, answer } => {
                let progress = self.message(*id).progress;
                matches!(progress, Progress::Decided { from, answer: given } if from == place && given == *answer)
            }
            Act::Heard { id, answer } => {
                self.is_asked_from(place, *id)
                    && matches!(self.message(*id).progress, Progress::Settled { answer: given } if given == *answer)
            }
            Act::Take { port, pos, id } => {
                self.is_held_at(place, *port)
                    && self
                        .ports
                        .get(port)
                        .is_some_and(|port| *pos == port.taken as u64 && port.accepted.get(port.taken) == Some(id))
            }
            Act::Done { number } => self
                .just_taken(place)
                .is_some_and(|reply| reply.taker == seat && reply.number == *number && self.ends_call(seat, reply)),
            Act::Late { number } => self
                .just_taken(place)
                .is_some_and(|reply| reply.taker == seat && reply.number == *number && !self.ends_call(seat, reply)),
            Act::Empty { port } => {
                self.is_held_at(place, *port) && self.ports.get(port).is_some_and(|port| port.waiting().is_empty())
            }
            Act::NotHere { .. } => true,
            Act::Rehome { port, actor } => {
                self.is_held_at(place, *port)
                    && self.layout.has_actor(*actor)
                    && actor.site() == self.layout.site_of(place)
            }
            Act::Depart { port, to, actor, hop } => {
                self.is_held_at(place, *port)
                    && self.layout.has_actor(*actor)
                    && actor.site() != self.layout.site_of(place)
                    && *to == self.layout.place_at(actor.site(), *port)
                    && self.ports.get(port).is_some_and(|port| *hop == port.path.len() as u64)
            }
            Act::Arrive { port, hop } => self.ports.get(port).is_some_and(|port| port.is_coming(place, *hop)),
            Act::GroupMake { group } => {
                self.layout.group_place(*group) == Some(place)
                    && group.number() <= GROUPS_PER_SITE
                    && group.number() - 1 == self.place(place).groups
            }
            Act::GroupsFull { site } => {
                self.layout.has_site(*site)
                    && self.layout.first_place(*site) == place
                    && self.place(place).groups == GROUPS_PER_SITE
            }
            Act::Join { group, port } => {
                let members = self.members(place, *group);
                self.is_group_at(place, *group) && !members.contains(port) && members.len() < MEMBERS
            }
            Act::Leave { group, port } | Act::There { group, port } => {
                self.is_group_at(place, *group) && self.members(place, *group).contains(port)
            }
            Act::NoGroup { group } => !self.is_group(*group),
            Act::NotThere { group, port } => {
                self.is_group_at(place, *group) && !self.members(place, *group).contains(port)
            }
            Act::MembersFull { group } => {
                self.is_group_at(place, *group) && self.members(place, *group).len() == MEMBERS
            }
            Act::Outstanding { number } | Act::Cancel { number } => self.seat(seat).call == Some(*number),
            Act::NoCall => self.seat(seat).call.is_none(),
            Act::NoRequest => self.seat(seat).hand.is_none(),
            Act::Delete { port, discarded } => {
                self.is_held_at(place, *port) && self.ports.get(port).is_some_and(|port| port.waiting() == discarded)
            }
            Act::Gone { id, port } => {
                self.due(place, *id, *port).is_some()
                    && self.ports.get(port).is_some_and(|port| port.is_ended_at(place))
            }
        }
    }

    fn is_home(&self, actor: Ui, place: u16) -> bool {
        self.layout.has_actor(actor) && self.layout.place_at(actor.site(), actor) == place
    }

    fn is_full_of_ports(&self, place: u16) -> bool {
        PORTS_PER_SITE / u64::from(self.layout.turns) <= self.place(place).ports
    }

    fn next_number(&self, place: u16) -> u64 {
        let turns = u64::from(self.layout.turns);
        self.place(place).ports * turns + u64::from(place - 1) % turns + 1
    }

    fn is_held_at(&self, place: u16, port: Ui) -> bool {
        self.ports.get(&port).is_some_and(|port| port.is_held_at(place))
    }

    fn ends_call(&self, seat: u32, reply: TakenReply) -> bool {
        reply.client == seat && self.seat(seat).call == Some(reply.number)
    }

    fn may_post(&self, place: u16, seat: u32, message: &Message, dest: Dest) -> bool {
        message.id.seat == seat
            && u64::from(message.id.number) == self.seat(seat).posts + 1
            && message.id.copy == 0
            && self.seat(seat).place.is_none_or(|at| at == place)
            && self.may_tag(seat, message, dest)
    }

    fn may_tag(&self, seat: u32, message: &Message, dest: Dest) -> bool {
        match message.tag {
            Tag::Plain => true,
            Tag::Request { number, .. } => {
                matches!(dest, Dest::Port(_))
                    && match self.seat(seat).call {
                        None => u64::from(number) == u64::from(self.seat(seat).requests) + 1,
                        Some(call) => call == number && self.is_call_again(seat, message, dest),
                    }
            }
            Tag::Reply { client, number } => match dest {
                Dest::Port(back) => self.seat(seat).hand == Some(Hand { client, number, back }),
                _ => false,
            },
        }
    }

    fn is_call_again(&self, seat: u32, message: &Message, dest: Dest) -> bool {
        match &self.entries[self.seat(seat).first].act {
            Act::Post { message: first, dest: to } => {
                first.tag == message.tag && *to == dest && first.body == message.body
            }
            _ => false,
        }
    }

    fn is_on_site(&self, site: Option<u16>, place: u16) -> bool {
        site.is_none_or(|site| self.layout.site_of(place) == site)
    }

    fn is_to_go(&self, place: u16, id: MsgId, port: Ui, to: u16) -> bool {
        self.is_first(place, id, port) && self.layout.has_site(port.site()) && self.located(place, port).to == to
    }

    fn due(&self, place: u16, id: MsgId, port: Ui) -> Option<Due> {
        match self.message(id).progress {
            Progress::Tried { port: tried, to, hop, .. } if to == place && tried == port => Some(Due::ByTry(hop)),
            _ if self.is_to_go(place, id, port, place) && self.is_on_site(self.site_asked(id), place) => {
                Some(Due::AtHome(self.located(place, port).hop))
            }
            _ => None,
        }
    }

    fn meets(&self, place: u16, id: MsgId, port: Ui) -> bool {
        self.due(place, id, port).is_some() && self.is_held_at(place, port)
    }

    fn may_enter(&self, place: u16, id: MsgId, port: Ui) -> bool {
        self.meets(place, id, port)
            && self.is_on_site(self.site_asked(id), place)
            && !self.is_already(port, id)
            && !self.finds_clients_full(port, id)
    }

    fn may_be_early(&self, place: u16, id: MsgId, port: Ui, hop: u64) -> bool {
        let location = self.located(place, port);
        let is_early = |tried: u64| {
            location == Location { to: place, hop } && tried < hop || location.hop <= tried && hop == tried && 0 < tried
        };
        self.due(place, id, port).is_some_and(|due| is_early(due.hop()))
            && self.ports.get(&port).is_some_and(|port| port.is_coming(place, hop))
    }

    fn may_be_elsewhere(&self, place: u16, id: MsgId, port: Ui, to: u16, hop: u64) -> bool {
        let site = self.site_asked(id);
        let is_off_site = || !self.is_on_site(site, to) && self.is_to_go(place, id, port, to);
        let has_left = || {
            matches!(self.due(place, id, port), Some(Due::ByTry(tried)) if tried < hop)
                && !self.is_held_at(place, port)
                && to != place
        };
        site.is_some() && self.located(place, port) == Location { to, hop } && (is_off_site() || has_left())
    }

    /// The members that are chosen for the post, where its turn to be chosen for at the place has come.
    fn choice_for(&self, place: u16, id: MsgId, group: Ui) -> Option<&[Ui]> {
        let Progress::Asked { from, dest } = self.message(id).progress else {
            return None;
        };
        let line = self.asks.get(&(from, group));
        let may = dest.group() == Some(group)
            && self.layout.group_place(group).unwrap_or(from) == place
            && self.first_open(line, |id| !self.mark(place, id).chosen) == Some(id);
        may.then(|| self.choice(place, group, dest))
    }

    fn choice(&self, place: u16, group: Ui, dest: Dest) -> &[Ui] {
        let Some(row) = self.groups.get(&(place, group)) else {
            return &[];
        };
        let members = &row.members;
        let mut in_turn = (row.rotation..members.len()).chain(0..row.rotation);
        let is_at_site = |port: Ui, site: u16| {
            self.layout.has_site(port.site()) && self.layout.site_of(self.located(place, port).to) == site
        };
        let chosen = match dest {
            Dest::Port(_) => None,
            Dest::All(_) => return members,
            Dest::One(_) => in_turn.next(),
            Dest::OneAt(_, site) => in_turn.find(|at| is_at_site(members[*at], site)),
        };
        match chosen {
            Some(at) => &members[at..=at],
            None => &[],
        }
    }

    fn is_asked_from(&self, place: u16, id: MsgId) -> bool {
        self.post_of(id).is_some_and(|post| {
            let home = post.dest.group().and_then(|group| self.layout.group_place(group));
            post.place == place && home.is_some_and(|home| home != place)
        })
    }

    // What an entry makes of the tables.

    fn follow(&mut self, entry: &Entry) {
        let tag = match &entry.act {
            Act::Take { id, .. } | Act::Accept { id, .. } => self.tag_of(*id),
            _ => Tag::Plain,
        };
        self.follow_ports(entry);
        self.follow_messages(entry);
        self.follow_marks(entry);
        self.follow_sends(entry);
        self.follow_locations(entry);
        self.follow_places(entry);
        self.follow_seats(entry, tag);
        self.follow_groups(entry);
        self.follow_clients(entry, tag);
        self.shorten(entry);
    }

    fn follow_ports(&mut self, entry: &Entry) {
        if let Act::Make { port, actor, capacity } = &entry.act {
            let (accepted, path) = (Vec::new(), vec![entry.place]);
            let row = Port { capacity: *capacity, accepted, taken: 0, path, spot: Spot::Held(*actor) };
            self.ports.insert(*port, row);
        } else if let Some(row) = held_port(&entry.act).and_then(|port| self.ports.get_mut(&port)) {
            row.change(&entry.act);
        }
    }

    fn follow_messages(&mut self, entry: &Entry) {
        let Some(id) = entry.act.message() else {
            return;
        };
        let row = self.messages.entry(id).or_default();
        row.progress = progress_after(entry.place, &entry.act, row.progress);
        row.verdict = row.verdict.or(verdict(&entry.act));
        if let Act::Post { message, dest } = &entry.act {
            row.post = row.post.or(Some(Posting { place: entry.place, tag: message.tag, dest: *dest }));
        }
    }

    fn follow_marks(&mut self, entry: &Entry) {
        let Some(id) = entry.act.message() else {
            return;
        };
        let row = self.marks.entry((entry.place, id)).or_default();
        match &entry.act {
            Act::Told { answer, .. } => {
                row.settled |= !matches!(answer, Answer::Stale { .. });
                row.tried = false;
            }
            Act::Try { .. } => row.tried = true,
            Act::Choose { .. } => row.chosen = true,
            act => {
                row.settled |= verdict(act).is_some();
                row.chosen |= matches!(act, Act::NoMember { .. });
            }
        }
    }

    /// What the entry sends, by id and in order.
    fn follow_sends(&mut self, entry: &Entry) {
        let place = entry.place;
        match &entry.act {
            Act::Post { message, dest: Dest::Port(port) } => {
                self.sends.entry((place, message.id)).or_insert(Sent { port: *port, route: None });
                self.lines.entry((place, *port, None)).or_default().push_back(message.id);
            }
            Act::Post { message, dest } => {
                if let Some(group) = dest.group() {
                    self.asks.entry((place, group)).or_default().push_back(message.id);
                }
            }
            Act::Choose { id, group, members } => {
                for (i, port) in members.iter().enumerate() {
                    let copy = MsgId { copy: i as u16 + 1, ..*id };
                    let route = Some(*group);
                    self.sends.entry((place, copy)).or_insert(Sent { port: *port, route });
                    self.lines.entry((place, *port, route)).or_default().push_back(copy);
                }
            }
            _ => {}
        }
    }

    fn follow_locations(&mut self, entry: &Entry) {
        let place = entry.place;
        let (port, location) = match &entry.act {
            Act::Arrive { port, hop } => (*port, Location { to: place, hop: *hop }),
            Act::Depart { port, to, hop, .. } => (*port, Location { to: *to, hop: *hop }),
            Act::Told { id, answer: Answer::Stale { to, hop } | Answer::Elsewhere { to, hop } } => {
                match self.sends.get(&(place, *id)) {
                    Some(sent) => (sent.port, Location { to: *to, hop: *hop }),
                    None => return,
                }
            }
            _ => return,
        };
        if self.located(place, port).hop < location.hop {
            self.locations.insert((place, port), location);
        }
    }

    fn follow_places(&mut self, entry: &Entry) {
        let row = self.places.entry(entry.place).or_default();
        row.clock = entry.clock;
        row.taken = None;
        match &entry.act {
            Act::Make { .. } => row.ports += 1,
            Act::GroupMake { .. } => row.groups += 1,
            Act::Take { id, .. } => row.taken = Some((entry.seat, *id)),
            _ => {}
        }
    }

    fn follow_seats(&mut self, entry: &Entry, tag: Tag) {
        let index = self.entries.len();
        let row = self.seats.entry(entry.seat).or_default();
        match &entry.act {
            Act::Post { message, .. } => {
                row.posts += 1;
                row.place = Some(entry.place);
                match message.tag {
                    Tag::Plain => {}
                    Tag::Request { number, .. } => {
                        if row.requests < number {
                            row.requests = number;
                            row.first = index;
                        }
                        row.call = Some(number);
                    }
                    Tag::Reply { .. } => row.hand = None,
                }
            }
            Act::Take { id, .. } => {
                if let Tag::Request { number, back } = tag {
                    row.hand = Some(Hand { client: id.seat, number, back });
                }
            }
            Act::Done { number } | Act::Cancel { number } if row.call == Some(*number) => row.call = None,
            _ => {}
        }
    }

    fn follow_groups(&mut self, entry: &Entry) {
        let place = entry.place;
        match &entry.act {
            Act::GroupMake { group } => self.groups.entry((place, *group)).or_default().made = true,
            Act::Join { group, port } => self.groups.entry((place, *group)).or_default().members.push(*port),
            Act::Leave { group, port } => {
                let row = self.groups.entry((place, *group)).or_default();
                if let Some(at) = row.members.iter().position(|member| member == port) {
                    row.members.remove(at);
                    if at < row.rotation {
                        row.rotation -= 1;
                    }
                    if row.rotation >= row.members.len() {
                        row.rotation = 0;
                    }
                }
            }
            Act::Choose { group, members, .. } => {
                let row = self.groups.entry((place, *group)).or_default();
                if let [port] = members[..] {
                    let at = row.members.iter().position(|member| *member == port).unwrap_or(0) + 1;
                    row.rotation = if at < row.members.len() { at } else { 0 };
                }
            }
            _ => {}
        }
    }

    fn follow_clients(&mut self, entry: &Entry, tag: Tag) {
        if let (Act::Accept { id, port, .. }, Tag::Request { number, .. }) = (&entry.act, tag) {
            let before = self.kept.insert((*port, id.seat), number);
            if before.is_none() {
                *self.clients.entry(*port).or_default() += 1;
            }
        }
    }

    /// Takes out of the lines of the entry's message the first ones that have met their end.
    fn shorten(&mut self, entry: &Entry) {
        let Some(id) = entry.act.message() else {
            return;
        };
        let place = entry.place;
        if let Some(sent) = self.sends.get(&(place, id))
            && let Some(line) = self.lines.get_mut(&(place, sent.port, sent.route))
        {
            while line.front().is_some_and(|id| self.marks.get(&(place, *id)).is_some_and(|mark| mark.settled)) {
                line.pop_front();
            }
        }
        if let Act::Choose { group, .. } | Act::NoMember { group, .. } = &entry.act
            && let Some(post) = self.post_of(id)
            && let Some(line) = self.asks.get_mut(&(post.place, *group))
        {
            while line.front().is_some_and(|id| self.marks.get(&(place, *id)).is_some_and(|mark| mark.chosen)) {
                line.pop_front();
            }
        }
    }
}
