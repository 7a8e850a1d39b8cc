//! The journals of `bench_parts checker` of commit 69363f89, made by the same pattern. A part of `checker.rs`.

use crate::entry::{Act, Answer, Dest, Entry, Kind, Message, MsgId, Tag, Ui};

/// So many sites, each with one place.
pub const SITES: u16 = 8;

/// A port moves after so many messages.
const STAY: u32 = 99;

/// The journal so far, and how many messages each caller posted: the caller of site 1 first.
struct Maker {
    entries: Vec<Entry>,
    posts: [u32; SITES as usize + 1],
}

/// What goes from the caller of a site to its port.
#[derive(Clone, Copy)]
struct Flow {
    from: u16,
    port: Ui,
    back: Ui,
    group: Ui,
    holder: u16,
    hop: u64,
    known: u16,
    known_hop: u64,
    accepted: u64,
    replies: u64,
    calls: u32,
    turn: u32,
}

impl Maker {
    fn push(&mut self, place: u16, act: Act) {
        let clock = self.entries.len() as u64 + 1;
        self.entries.push(Entry { clock, place, seat: u32::from(place), act });
    }

    fn post(&mut self, place: u16, tag: Tag, dest: Dest) -> MsgId {
        let posts = &mut self.posts[usize::from(place)];
        *posts += 1;
        let id = MsgId { seat: u32::from(place), number: *posts, copy: 0 };
        let body = b"sixteen bytes...".to_vec();
        self.push(place, Act::Post { message: Message { id, tag, body }, dest });
        id
    }

    /// The message is tried at the place, which holds the port, and accepted and taken there.
    fn deliver(&mut self, from: u16, id: MsgId, port: Ui, to: u16, hop: u64, pos: u64) {
        self.push(from, Act::Try { id, port, to, hop });
        self.push(to, Act::Accept { id, port, pos });
        self.push(from, Act::Told { id, answer: Answer::Accepted { pos } });
        self.push(to, Act::Take { port, pos, id });
    }

    /// The message is tried where the port was, and found stale.
    fn miss(&mut self, flow: &Flow, id: MsgId) {
        let (port, tried, to, hop) = (flow.port, flow.known_hop, flow.holder, flow.hop);
        self.push(flow.from, Act::Try { id, port, to: flow.known, hop: tried });
        self.push(flow.known, Act::Stale { id, port, tried, to, hop });
        self.push(flow.from, Act::Told { id, answer: Answer::Stale { to, hop } });
    }

    /// The message comes to the flow's port.
    fn reach(&mut self, flow: &mut Flow, id: MsgId) {
        if flow.known != flow.holder {
            self.miss(flow, id);
            flow.known = flow.holder;
            flow.known_hop = flow.hop;
        }
        self.deliver(flow.from, id, flow.port, flow.holder, flow.hop, flow.accepted);
        flow.accepted += 1;
    }

    /// One message to the group, for which the port is chosen.
    fn choose(&mut self, flow: &mut Flow) {
        let group = flow.group;
        let id = self.post(flow.from, Tag::Plain, Dest::One(group));
        self.push(flow.from, Act::Choose { id, group, members: vec![flow.port] });
        self.reach(flow, MsgId { copy: 1, ..id });
    }

    /// One call: the request, the reply of the caller of the port's site, and the end of the call.
    fn call(&mut self, flow: &mut Flow) {
        flow.calls += 1;
        let (number, back) = (flow.calls, flow.back);
        let id = self.post(flow.from, Tag::Request { number, back }, Dest::Port(flow.port));
        self.reach(flow, id);
        let client = u32::from(flow.from);
        let id = self.post(flow.holder, Tag::Reply { client, number }, Dest::Port(back));
        self.deliver(flow.holder, id, back, flow.from, 0, flow.replies);
        flow.replies += 1;
        self.push(flow.from, Act::Done { number });
    }

    /// The port moves to the next site.
    fn depart(&mut self, flow: &mut Flow) {
        let (port, to, hop) = (flow.port, next_site(flow.holder, flow.from), flow.hop + 1);
        let actor = Ui::new(to, Kind::Actor, 1).unwrap();
        self.push(flow.holder, Act::Depart { port, to, actor, hop });
        self.push(to, Act::Arrive { port, hop });
        flow.holder = to;
        flow.hop = hop;
    }

    /// The next message of the flow.
    fn advance(&mut self, flow: &mut Flow) {
        match flow.turn % 3 {
            0 => {
                let id = self.post(flow.from, Tag::Plain, Dest::Port(flow.port));
                self.reach(flow, id);
            }
            1 => self.choose(flow),
            _ => self.call(flow),
        }
        flow.turn += 1;
        if flow.turn % STAY == 0 {
            self.depart(flow);
        }
    }

    fn make(&mut self, port: Ui) {
        let actor = Ui::new(port.site(), Kind::Actor, 1).unwrap();
        self.push(port.site(), Act::Make { port, actor, capacity: 64 });
    }
}

/// The site behind this one, round all of them, but not that of the caller.
fn next_site(site: u16, from: u16) -> u16 {
    let next = site % SITES + 1;
    if next != from { next } else { next % SITES + 1 }
}

/// The flow of the site's caller, at its start.
fn start(from: u16) -> Flow {
    let site = next_site(from, from);
    Flow {
        from,
        port: Ui::new(site, Kind::Port, 1).unwrap(),
        back: Ui::new(from, Kind::Port, 2).unwrap(),
        group: Ui::new(from, Kind::Group, 1).unwrap(),
        holder: site,
        hop: 0,
        known: site,
        known_hop: 0,
        accepted: 0,
        replies: 0,
        calls: 0,
        turn: 0,
    }
}

/// A legal journal of about so many entries, and no fewer.
pub fn journal(many: usize) -> Vec<Entry> {
    let mut maker = Maker { entries: Vec::new(), posts: [0; SITES as usize + 1] };
    let mut flows: Vec<Flow> = (1..=SITES).map(start).collect();
    for flow in &flows {
        maker.make(flow.port);
    }
    for flow in &flows {
        maker.make(flow.back);
        maker.push(flow.from, Act::GroupMake { group: flow.group });
        maker.push(flow.from, Act::Join { group: flow.group, port: flow.port });
    }
    loop {
        for flow in &mut flows {
            if maker.entries.len() >= many {
                return maker.entries;
            }
            maker.advance(flow);
        }
    }
}
