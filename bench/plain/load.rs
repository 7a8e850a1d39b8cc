//! A plain Rust program that plays the words `load FIRST COMMANDS` of `chorus`, for a measure of the proved program
//! (docs/inside/BENCHMARKS.md, "Plain programs"). Written from docs/FORMATS.md and the place machine in
//! `crates/law_machine/specs`, with the hash map of std and its hasher, and no `unsafe`. Each place has its clock, its
//! journal, port records, locations, groups, messages that wait, and a queue of packets for each other place; packets are
//! delivered one by one. At the end the journals are merged, of which no entry is copied, and the summary is printed.
//!
//!     rustc --edition 2024 -O -C target-cpu=x86-64 -o load load.rs
//!     ./load 7 65536           prints the summary, as `chorus load 7 65536` does
//!     ./load 7 65536 report    prints the journal too
//!
//! Calls, retries, replies and deletions are left out: a load has none. What a record keeps of requests moves with it all the same.

mod entry;
mod show;
mod summary;

use entry::{
    Act, Answer, CLIENTS, Dest, Entry, GROUPS_PER_SITE, Kind, Layout, MEMBERS, Message, MsgId, PORTS_PER_SITE, Tag, Ui,
};
use std::cmp::Reverse;
use std::collections::{BinaryHeap, HashMap, VecDeque};

const SITES: u16 = 8;

const LOAD_LIMIT: u64 = 65_536;

/// A port as it is held, and as it moves.
struct Record {
    actor: Ui,
    capacity: u8,
    hop: u64,
    /// The position of the first pending message.
    first: u64,
    pending: VecDeque<Message>,
    /// The greatest request number of each client.
    clients: HashMap<u32, u32>,
}

/// A message that waits at the place that sends it, also while it is under way.
struct Waiting {
    message: Message,
    only: Option<u16>,
    /// Where the verdict is reported.
    home: Option<u16>,
}

enum Cargo {
    Try { message: Message, port: Ui, route: Option<Ui>, only: Option<u16>, hop: u64 },
    Verdict { id: MsgId, port: Ui, route: Option<Ui>, answer: Answer },
    Transfer { port: Ui, record: Box<Record> },
    Ask { message: Message, dest: Dest },
    Report { id: MsgId, answer: Answer },
}

struct Packet {
    clock: u64,
    cargo: Cargo,
}

#[derive(Default)]
struct Group {
    members: Vec<Ui>,
    rotation: usize,
}

/// The call under way: by whom, and the clock of its last entry.
struct Turn {
    seat: u32,
    now: u64,
}

struct Place {
    layout: Layout,
    number: u16,
    clock: u64,
    journal: Vec<Entry>,
    ports_made: u64,
    records: HashMap<Ui, Record>,
    locations: HashMap<Ui, (u16, u64)>,
    groups: HashMap<Ui, Group>,
    waiting: HashMap<(Ui, Option<Ui>), VecDeque<Waiting>>,
    /// The packets for each place, in order.
    outboxes: Vec<VecDeque<Packet>>,
}

impl Place {
    fn new(layout: Layout, number: u16) -> Place {
        Place {
            layout,
            number,
            clock: 0,
            journal: Vec::new(),
            ports_made: 0,
            records: HashMap::new(),
            locations: HashMap::new(),
            groups: HashMap::new(),
            waiting: HashMap::new(),
            outboxes: (0..=layout.places()).map(|_| VecDeque::new()).collect(),
        }
    }

    fn log(&mut self, turn: &mut Turn, act: Act) {
        turn.now += 1;
        self.journal.push(Entry { clock: turn.now, place: self.number, seat: turn.seat, act });
    }

    /// A packet has the clock of the entry that caused it, the last one.
    fn put(&mut self, turn: &Turn, to: u16, cargo: Cargo) {
        self.outboxes[usize::from(to)].push_back(Packet { clock: turn.now, cargo });
    }

    fn newest(&self, port: Ui) -> (u16, u64) {
        match self.locations.get(&port) {
            Some(location) => *location,
            None => (self.layout.place_at(port.site(), port), 0),
        }
    }

    fn learn(&mut self, port: Ui, to: u16, hop: u64) {
        if self.newest(port).1 < hop {
            self.locations.insert(port, (to, hop));
        }
    }

    // Messages.

    /// Decides on a message that is tried here with a hop.
    fn decide(&mut self, turn: &mut Turn, message: Message, port: Ui, only: Option<u16>, tried: u64) -> Answer {
        let id = message.id;
        let (act, answer) = match self.records.get_mut(&port) {
            Some(record) => enter(record, message, port),
            None => self.miss(id, port, only, tried),
        };
        self.log(turn, act);
        answer
    }

    /// What is answered where the port is not held.
    fn miss(&self, id: MsgId, port: Ui, only: Option<u16>, tried: u64) -> (Act, Answer) {
        let (to, hop) = self.newest(port);
        if hop > tried {
            if to == self.number {
                (Act::Early { id, port, hop }, Answer::Early { hop })
            } else if only.is_some() {
                (Act::Elsewhere { id, port, to, hop }, Answer::Elsewhere { to, hop })
            } else {
                (Act::Stale { id, port, tried, to, hop }, Answer::Stale { to, hop })
            }
        } else if tried == 0 {
            (Act::NoPort { id, port }, Answer::NoPort)
        } else {
            (Act::Early { id, port, hop: tried }, Answer::Early { hop: tried })
        }
    }

    /// Puts the message behind those that wait for the port by this route, and tries it where it is the first.
    fn send(&mut self, turn: &mut Turn, port: Ui, route: Option<Ui>, waiting: Waiting) {
        let line = self.waiting.entry((port, route)).or_default();
        line.push_back(waiting);
        if line.len() == 1 {
            self.go_on(turn, port, route);
        }
    }

    /// Tries the first message that waits, and so on while decisions are made here.
    fn go_on(&mut self, turn: &mut Turn, port: Ui, route: Option<Ui>) {
        while let Some(first) = self.waiting.get_mut(&(port, route)).and_then(VecDeque::pop_front) {
            let (id, only, home) = (first.message.id, first.only, first.home);
            let (to, hop) = self.newest(port);
            let answer = if !self.layout.has_site(port.site()) {
                self.log(turn, Act::NoPort { id, port });
                Answer::NoPort
            } else if only.is_some_and(|site| self.layout.site_of(to) != site) {
                self.log(turn, Act::Elsewhere { id, port, to, hop });
                Answer::Elsewhere { to, hop }
            } else if to != self.number {
                self.log(turn, Act::Try { id, port, to, hop });
                let message = first.message.clone();
                self.put(turn, to, Cargo::Try { message, port, route, only, hop });
                self.waiting.entry((port, route)).or_default().push_front(first);
                return;
            } else {
                self.decide(turn, first.message, port, only, hop)
            };
            self.report(turn, home, id, answer);
        }
    }

    fn report(&mut self, turn: &Turn, home: Option<u16>, id: MsgId, answer: Answer) {
        if let Some(home) = home {
            self.put(turn, home, Cargo::Report { id, answer });
        }
    }

    fn told(&mut self, turn: &mut Turn, id: MsgId, port: Ui, route: Option<Ui>, answer: Answer) {
        self.log(turn, Act::Told { id, answer });
        if let Answer::Stale { to, hop } | Answer::Elsewhere { to, hop } = answer {
            self.learn(port, to, hop);
        }
        if !matches!(answer, Answer::Stale { .. }) {
            let first = self.waiting.get_mut(&(port, route)).and_then(VecDeque::pop_front);
            self.report(turn, first.and_then(|first| first.home), id, answer);
        }
        self.go_on(turn, port, route);
    }

    /// Chooses members for a post to a group. The post's place is `home`, where it is another one.
    fn choose(&mut self, turn: &mut Turn, message: Message, dest: Dest, home: Option<u16>) {
        let (id, Some(group)) = (message.id, dest.group()) else {
            return;
        };
        let members = self.chosen(group, dest);
        if members.is_empty() {
            self.log(turn, Act::NoMember { id, group });
            return self.report(turn, home, id, Answer::NoMember);
        }
        self.log(turn, Act::Choose { id, group, members: members.clone() });
        self.report(turn, home, id, Answer::Chosen { count: members.len() as u16 });
        for (i, port) in members.into_iter().enumerate() {
            let id = MsgId { copy: i as u16 + 1, ..id };
            let message = Message { id, tag: message.tag, body: message.body.clone() };
            self.send(turn, port, Some(group), Waiting { message, only: dest.site(), home });
        }
    }

    /// The members that are chosen, in order. A choice of one moves the rotation place behind it.
    fn chosen(&mut self, group: Ui, dest: Dest) -> Vec<Ui> {
        let Some(row) = self.groups.get(&group) else {
            return Vec::new();
        };
        let members = &row.members;
        let mut in_turn = (row.rotation..members.len()).chain(0..row.rotation);
        let is_at_site =
            |port: Ui, site: u16| self.layout.has_site(port.site()) && self.layout.site_of(self.newest(port).0) == site;
        let at = match dest {
            Dest::Port(_) => None,
            Dest::All(_) => return members.clone(),
            Dest::One(_) => in_turn.next(),
            Dest::OneAt(_, site) => in_turn.find(|at| is_at_site(members[*at], site)),
        };
        let Some(at) = at else {
            return Vec::new();
        };
        let (port, rotation) = (members[at], (at + 1) % members.len());
        if let Some(row) = self.groups.get_mut(&group) {
            row.rotation = rotation;
        }
        vec![port]
    }

    // Commands.

    fn make(&mut self, turn: &mut Turn, actor: Ui, capacity: u8) {
        let turns = u64::from(self.layout.turns);
        if self.ports_made == PORTS_PER_SITE / turns {
            return self.log(turn, Act::MakeFull { actor });
        }
        let number = self.ports_made * turns + u64::from(self.number - 1) % turns + 1;
        let Some(port) = Ui::new(actor.site(), Kind::Port, number) else {
            return;
        };
        self.ports_made += 1;
        self.log(turn, Act::Make { port, actor, capacity });
        let (pending, clients) = (VecDeque::new(), HashMap::new());
        self.records.insert(port, Record { actor, capacity, hop: 0, first: 0, pending, clients });
    }

    fn make_group(&mut self, turn: &mut Turn, site: u16) {
        let made = self.groups.len() as u64;
        match Ui::new(site, Kind::Group, made + 1) {
            Some(group) if made < GROUPS_PER_SITE => {
                self.log(turn, Act::GroupMake { group });
                self.groups.insert(group, Group::default());
            }
            _ => self.log(turn, Act::GroupsFull { site }),
        }
    }

    fn join(&mut self, turn: &mut Turn, group: Ui, port: Ui) {
        let act = match self.groups.get_mut(&group) {
            None => Act::NoGroup { group },
            Some(row) if row.members.contains(&port) => Act::There { group, port },
            Some(row) if row.members.len() == MEMBERS => Act::MembersFull { group },
            Some(row) => {
                row.members.push(port);
                Act::Join { group, port }
            }
        };
        self.log(turn, act);
    }

    fn post(&mut self, turn: &mut Turn, message: Message, dest: Dest) {
        self.log(turn, Act::Post { message: message.clone(), dest });
        match dest {
            Dest::Port(port) => self.send(turn, port, None, Waiting { message, only: None, home: None }),
            Dest::All(group) | Dest::One(group) | Dest::OneAt(group, _) => match self.layout.group_place(group) {
                Some(place) if place != self.number => self.put(turn, place, Cargo::Ask { message, dest }),
                _ => self.choose(turn, message, dest, None),
            },
        }
    }

    /// The message that is received.
    fn take(&mut self, turn: &mut Turn, actor: Ui, port: Ui) -> Option<Message> {
        let (act, message) = match self.records.get_mut(&port).filter(|record| record.actor == actor) {
            None => (Act::NotHere { port }, None),
            Some(record) => match record.pending.pop_front() {
                None => (Act::Empty { port }, None),
                Some(message) => {
                    let (pos, id) = (record.first, message.id);
                    record.first += 1;
                    (Act::Take { port, pos, id }, Some(message))
                }
            },
        };
        self.log(turn, act);
        message
    }

    fn move_port(&mut self, turn: &mut Turn, from: Ui, port: Ui, actor: Ui) {
        let Some(record) = self.records.get_mut(&port).filter(|record| record.actor == from) else {
            return self.log(turn, Act::NotHere { port });
        };
        if !self.layout.has_actor(actor) {
            return self.log(turn, Act::NoActor { actor });
        }
        record.actor = actor;
        if actor.site() == self.layout.site_of(self.number) {
            return self.log(turn, Act::Rehome { port, actor });
        }
        record.hop += 1;
        let (to, hop) = (self.layout.place_at(actor.site(), port), record.hop);
        self.log(turn, Act::Depart { port, to, actor, hop });
        self.learn(port, to, hop);
        if let Some(record) = self.records.remove(&port) {
            self.put(turn, to, Cargo::Transfer { port, record: Box::new(record) });
        }
    }

    // Packets.

    /// Works off a packet from another place.
    fn work(&mut self, turn: &mut Turn, from: u16, cargo: Cargo) {
        match cargo {
            Cargo::Try { message, port, route, only, hop } => {
                let id = message.id;
                let answer = self.decide(turn, message, port, only, hop);
                self.put(turn, from, Cargo::Verdict { id, port, route, answer });
            }
            Cargo::Verdict { id, port, route, answer } => self.told(turn, id, port, route, answer),
            Cargo::Transfer { port, record } => {
                self.log(turn, Act::Arrive { port, hop: record.hop });
                self.learn(port, self.number, record.hop);
                self.records.insert(port, *record);
            }
            Cargo::Ask { message, dest } => self.choose(turn, message, dest, Some(from)),
            Cargo::Report { id, answer } => self.log(turn, Act::Heard { id, answer }),
        }
    }
}

/// A message meets its port: it is put into the queue where that has room.
fn enter(record: &mut Record, message: Message, port: Ui) -> (Act, Answer) {
    let id = message.id;
    if let Tag::Request { number, .. } = message.tag {
        match record.clients.get(&id.seat) {
            Some(kept) if number <= *kept => return (Act::Already { id, port }, Answer::Already),
            None if record.clients.len() == CLIENTS => return (Act::ClientsFull { id, port }, Answer::ClientsFull),
            _ => {}
        }
    }
    if record.pending.len() == usize::from(record.capacity) {
        let len = record.capacity;
        return (Act::Full { id, port, len }, Answer::Full { len });
    }
    if let Tag::Request { number, .. } = message.tag {
        record.clients.insert(id.seat, number);
    }
    let pos = record.first + record.pending.len() as u64;
    record.pending.push_back(message);
    (Act::Accept { id, port, pos }, Answer::Accepted { pos })
}

struct Caller {
    actor: Ui,
    /// The clock of its last entry, and how many messages it posted.
    last: u64,
    posts: u32,
}

enum Command {
    Make { actor: Ui, capacity: u8 },
    GroupMake { site: u16 },
    Join { group: Ui, port: Ui },
    Send { dest: Dest, body: Vec<u8> },
    Take { port: Ui },
    Move { port: Ui, actor: Ui },
}

struct Net {
    layout: Layout,
    /// Place 1 first.
    places: Vec<Place>,
    callers: Vec<Caller>,
}

impl Net {
    fn start(layout: Layout) -> Net {
        let places = (1..=layout.places()).map(|number| Place::new(layout, number)).collect();
        Net { layout, places, callers: vec![Caller { actor: actor(1), last: 0, posts: 0 }] }
    }

    fn enter(&mut self, actor: Ui) {
        let last = self.callers[0].last;
        self.callers.push(Caller { actor, last, posts: 0 });
    }

    /// The place at which the caller's command is performed.
    fn place_for(&self, actor: Ui, command: &Command) -> u16 {
        let home = |actor: Ui| self.layout.place_at(actor.site(), actor);
        match command {
            Command::Make { actor: other, .. } if self.layout.has_actor(*other) => home(*other),
            Command::GroupMake { site } if self.layout.has_site(*site) => self.layout.first_place(*site),
            Command::Join { group, .. } => self.layout.group_place(*group).unwrap_or(home(actor)),
            Command::Take { port } | Command::Move { port, .. } => self.layout.place_at(actor.site(), *port),
            _ => home(actor),
        }
    }

    fn act(&mut self, seat: u32, command: Command) {
        let number = self.place_for(self.callers[seat as usize].actor, &command);
        let caller = &mut self.callers[seat as usize];
        let place = &mut self.places[usize::from(number) - 1];
        let turn = &mut Turn { seat, now: place.clock.max(caller.last) };
        match command {
            Command::Make { actor, .. } if !self.layout.has_actor(actor) => place.log(turn, Act::NoActor { actor }),
            Command::Make { actor, capacity } => place.make(turn, actor, capacity),
            Command::GroupMake { site } if !self.layout.has_site(site) => place.log(turn, Act::NoSite { site }),
            Command::GroupMake { site } => place.make_group(turn, site),
            Command::Join { group, port } => place.join(turn, group, port),
            Command::Send { dest, body } => {
                caller.posts += 1;
                let id = MsgId { seat, number: caller.posts, copy: 0 };
                place.post(turn, Message { id, tag: Tag::Plain, body }, dest);
            }
            Command::Take { port } => {
                place.take(turn, caller.actor, port);
            }
            Command::Move { port, actor } => place.move_port(turn, caller.actor, port, actor),
        }
        place.clock = turn.now;
        caller.last = turn.now;
    }

    /// Seat 0 works off the first packet from one place to another; false where there is none.
    fn deliver(&mut self, from: u16, to: u16) -> bool {
        let Some(packet) = self.places[usize::from(from) - 1].outboxes[usize::from(to)].pop_front() else {
            return false;
        };
        let caller = &mut self.callers[0];
        let place = &mut self.places[usize::from(to) - 1];
        let turn = &mut Turn { seat: 0, now: place.clock.max(caller.last).max(packet.clock) };
        place.work(turn, from, packet.cargo);
        place.clock = turn.now;
        caller.last = turn.now;
        true
    }

    /// Rounds of one delivery for each pair of places, until a round has none.
    fn drain(&mut self) {
        let places = self.layout.places();
        loop {
            let mut served = false;
            for from in 1..=places {
                for to in 1..=places {
                    served |= from != to && self.deliver(from, to);
                }
            }
            if !served {
                return;
            }
        }
    }

    /// The entries of all journals by clock and place.
    fn merged(&self) -> Vec<&Entry> {
        let mut journals: Vec<_> = self.places.iter().map(|place| place.journal.iter()).collect();
        let mut merged = Vec::with_capacity(self.places.iter().map(|place| place.journal.len()).sum());
        let mut heads = BinaryHeap::new();
        let mut firsts: Vec<Option<&Entry>> = journals.iter_mut().map(Iterator::next).collect();
        for (i, first) in firsts.iter().enumerate() {
            heads.extend(first.map(|entry| Reverse((entry.clock, entry.place, i))));
        }
        while let Some(Reverse((_, _, i))) = heads.pop() {
            merged.extend(firsts[i]);
            firsts[i] = journals[i].next();
            heads.extend(firsts[i].map(|entry| Reverse((entry.clock, entry.place, i))));
        }
        merged
    }
}

fn actor(site: u16) -> Ui {
    Ui::new(site, Kind::Actor, 1).unwrap()
}

fn port(site: u16) -> Ui {
    Ui::new(site, Kind::Port, 1).unwrap()
}

/// The net after so many commands, which are drawn from the first number.
fn load(first: u64, commands: u64) -> Net {
    let mut net = Net::start(Layout { sites: SITES, turns: 1 });
    let group = Ui::new(1, Kind::Group, 1).unwrap();
    for site in 1..=SITES {
        net.act(0, Command::Make { actor: actor(site), capacity: 64 });
    }
    net.act(0, Command::GroupMake { site: 1 });
    for site in 1..=SITES {
        net.act(0, Command::Join { group, port: port(site) });
    }
    for site in 1..=SITES {
        net.enter(actor(site));
    }
    let mut state = first;
    for number in 1..=commands {
        state = state.wrapping_mul(6_364_136_223_846_793_005).wrapping_add(1_442_695_040_888_963_407);
        let drawn = state >> 33;
        let digit = |unit: u64| ((drawn / unit) % 8) as u16 + 1;
        let body = number.to_string().into_bytes();
        let command = match drawn % 8 {
            0..=3 => Command::Send { dest: Dest::Port(port(digit(8))), body },
            4 | 5 => Command::Take { port: port(digit(8)) },
            6 => Command::Send { dest: Dest::One(group), body },
            _ => Command::Move { port: port(digit(8)), actor: actor(digit(64)) },
        };
        net.act(((number - 1) % 8) as u32 + 1, command);
        if digit(512) != digit(4_096) {
            net.deliver(digit(512), digit(4_096));
        }
    }
    net.drain();
    net
}

fn main() {
    let words: Vec<String> = std::env::args().skip(1).collect();
    let words: Vec<&str> = words.iter().map(String::as_str).collect();
    let number = |word: &str| entry::decimal(word.as_bytes());
    let (first, commands) = match words[..] {
        [first, commands] | [first, commands, "report"] => (number(first), number(commands)),
        _ => (None, None),
    };
    let (Some(first), Some(commands @ ..=LOAD_LIMIT)) = (first, commands) else {
        eprintln!("usage: load FIRST COMMANDS [report]");
        std::process::exit(1);
    };
    let net = load(first, commands);
    let merged = net.merged();
    if words.len() == 3 {
        print!("{}", show::journal_text(merged.iter().copied()));
    }
    print!("{}", summary::summary(merged));
}
