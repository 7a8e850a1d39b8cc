//! The entries of a journal and their lines, as docs/FORMATS.md has them. A part of `checker.rs` and of `load.rs`.
#![allow(dead_code)]

pub const ACTORS_PER_SITE: u64 = 8;
pub const PORTS_PER_SITE: u64 = 32;
pub const GROUPS_PER_SITE: u64 = 4;
pub const MEMBERS: usize = 32;
pub const PENDING: u8 = 64;
pub const CLIENTS: usize = 64;
pub const BODY: usize = 4_096;

/// The name of an actor, a port or a group: 16 bits of site, 8 of kind and 40 of number.
#[derive(Clone, Copy, Debug, PartialEq, Eq, Hash)]
pub struct Ui(u64);

#[derive(Clone, Copy, Debug, PartialEq, Eq)]
pub enum Kind {
    Actor = 1,
    Port = 2,
    Group = 3,
}

impl Ui {
    pub fn new(site: u16, kind: Kind, number: u64) -> Option<Ui> {
        if site == 0 || number == 0 || number >> 40 != 0 {
            return None;
        }
        Some(Ui(u64::from(site) << 48 | (kind as u64) << 40 | number))
    }

    pub fn site(self) -> u16 {
        (self.0 >> 48) as u16
    }

    pub fn number(self) -> u64 {
        self.0 & ((1 << 40) - 1)
    }

    pub fn is(self, kind: Kind) -> bool {
        (self.0 >> 40) as u8 == kind as u8
    }

    pub fn parse(text: &[u8]) -> Option<Ui> {
        let mut parts = text.split(|c| *c == b'.');
        let (site, letter, number) = (parts.next()?, parts.next()?, parts.next()?);
        if parts.next().is_some() {
            return None;
        }
        let kind = match letter {
            b"a" => Kind::Actor,
            b"p" => Kind::Port,
            b"g" => Kind::Group,
            _ => return None,
        };
        Ui::new(u16::try_from(decimal(site)?).ok()?, kind, decimal(number)?)
    }
}

/// How many sites there are, and how many places each has. Places are numbered from 1.
#[derive(Clone, Copy, Debug)]
pub struct Layout {
    pub sites: u16,
    pub turns: u16,
}

impl Layout {
    pub fn new(sites: u16, turns: u16) -> Option<Layout> {
        ((1..=16).contains(&sites) && matches!(turns, 1 | 2 | 4)).then_some(Layout { sites, turns })
    }

    pub fn places(self) -> u16 {
        self.sites * self.turns
    }

    pub fn has_site(self, site: u16) -> bool {
        1 <= site && site <= self.sites
    }

    pub fn has_place(self, place: u16) -> bool {
        1 <= place && place <= self.places()
    }

    pub fn has_actor(self, actor: Ui) -> bool {
        self.has_site(actor.site()) && actor.number() <= ACTORS_PER_SITE
    }

    pub fn first_place(self, site: u16) -> u16 {
        (site - 1) * self.turns + 1
    }

    /// The place of a thing of this name on a site of the layout.
    pub fn place_at(self, site: u16, ui: Ui) -> u16 {
        self.first_place(site) + ((ui.number() - 1) % u64::from(self.turns)) as u16
    }

    /// The site of a place, which may not be one of the layout.
    pub fn site_of(self, place: u16) -> u16 {
        place.saturating_sub(1) / self.turns + 1
    }

    /// The place of a group, where its site is one of the layout.
    pub fn group_place(self, group: Ui) -> Option<u16> {
        self.has_site(group.site()).then(|| self.first_place(group.site()))
    }
}

#[derive(Clone, Copy, Debug, PartialEq, Eq, Hash)]
pub struct MsgId {
    pub seat: u32,
    pub number: u32,
    pub copy: u16,
}

#[derive(Clone, Copy, Debug, PartialEq, Eq)]
pub enum Tag {
    Plain,
    Request { number: u32, back: Ui },
    Reply { client: u32, number: u32 },
}

#[derive(Clone, Copy, Debug, PartialEq, Eq)]
pub enum Dest {
    Port(Ui),
    All(Ui),
    One(Ui),
    OneAt(Ui, u16),
}

impl Dest {
    pub fn group(self) -> Option<Ui> {
        match self {
            Dest::Port(_) => None,
            Dest::All(group) | Dest::One(group) | Dest::OneAt(group, _) => Some(group),
        }
    }

    pub fn site(self) -> Option<u16> {
        match self {
            Dest::OneAt(_, site) => Some(site),
            _ => None,
        }
    }
}

#[derive(Clone, Copy, Debug, PartialEq, Eq)]
pub enum Answer {
    Accepted { pos: u64 },
    Full { len: u8 },
    Stale { to: u16, hop: u64 },
    Early { hop: u64 },
    NoPort,
    Already,
    ClientsFull,
    Elsewhere { to: u16, hop: u64 },
    NoMember,
    Chosen { count: u16 },
    Gone,
}

#[derive(Clone, Debug, PartialEq, Eq)]
pub struct Message {
    pub id: MsgId,
    pub tag: Tag,
    pub body: Vec<u8>,
}

/// What happened, numbered from 1 in this order.
#[derive(Clone, Debug, PartialEq, Eq)]
#[rustfmt::skip]
pub enum Act {
    Make { port: Ui, actor: Ui, capacity: u8 },
    MakeFull { actor: Ui },
    NoActor { actor: Ui },
    NoSite { site: u16 },
    Post { message: Message, dest: Dest },
    Accept { id: MsgId, port: Ui, pos: u64 },
    Full { id: MsgId, port: Ui, len: u8 },
    Already { id: MsgId, port: Ui },
    ClientsFull { id: MsgId, port: Ui },
    Stale { id: MsgId, port: Ui, tried: u64, to: u16, hop: u64 },
    Early { id: MsgId, port: Ui, hop: u64 },
    NoPort { id: MsgId, port: Ui },
    Elsewhere { id: MsgId, port: Ui, to: u16, hop: u64 },
    NoMember { id: MsgId, group: Ui },
    Choose { id: MsgId, group: Ui, members: Vec<Ui> },
    Try { id: MsgId, port: Ui, to: u16, hop: u64 },
    Told { id: MsgId, answer: Answer },
    Heard { id: MsgId, answer: Answer },
    Take { port: Ui, pos: u64, id: MsgId },
    Done { number: u32 },
    Late { number: u32 },
    Empty { port: Ui },
    NotHere { port: Ui },
    Rehome { port: Ui, actor: Ui },
    Depart { port: Ui, to: u16, actor: Ui, hop: u64 },
    Arrive { port: Ui, hop: u64 },
    GroupMake { group: Ui },
    GroupsFull { site: u16 },
    Join { group: Ui, port: Ui },
    Leave { group: Ui, port: Ui },
    NoGroup { group: Ui },
    There { group: Ui, port: Ui },
    NotThere { group: Ui, port: Ui },
    MembersFull { group: Ui },
    Outstanding { number: u32 },
    NoCall,
    NoRequest,
    Cancel { number: u32 },
    Delete { port: Ui, discarded: Vec<MsgId> },
    Gone { id: MsgId, port: Ui },
}

#[derive(Clone, Debug, PartialEq, Eq)]
pub struct Entry {
    pub clock: u64,
    pub place: u16,
    pub seat: u32,
    pub act: Act,
}

impl Act {
    /// The number of the act, which is that of its rule.
    pub fn number(&self) -> u8 {
        match self {
            Act::Make { .. } => 1,
            Act::MakeFull { .. } => 2,
            Act::NoActor { .. } => 3,
            Act::NoSite { .. } => 4,
            Act::Post { .. } => 5,
            Act::Accept { .. } => 6,
            Act::Full { .. } => 7,
            Act::Already { .. } => 8,
            Act::ClientsFull { .. } => 9,
            Act::Stale { .. } => 10,
            Act::Early { .. } => 11,
            Act::NoPort { .. } => 12,
            Act::Elsewhere { .. } => 13,
            Act::NoMember { .. } => 14,
            Act::Choose { .. } => 15,
            Act::Try { .. } => 16,
            Act::Told { .. } => 17,
            Act::Heard { .. } => 18,
            Act::Take { .. } => 19,
            Act::Done { .. } => 20,
            Act::Late { .. } => 21,
            Act::Empty { .. } => 22,
            Act::NotHere { .. } => 23,
            Act::Rehome { .. } => 24,
            Act::Depart { .. } => 25,
            Act::Arrive { .. } => 26,
            Act::GroupMake { .. } => 27,
            Act::GroupsFull { .. } => 28,
            Act::Join { .. } => 29,
            Act::Leave { .. } => 30,
            Act::NoGroup { .. } => 31,
            Act::There { .. } => 32,
            Act::NotThere { .. } => 33,
            Act::MembersFull { .. } => 34,
            Act::Outstanding { .. } => 35,
            Act::NoCall => 36,
            Act::NoRequest => 37,
            Act::Cancel { .. } => 38,
            Act::Delete { .. } => 39,
            Act::Gone { .. } => 40,
        }
    }

    /// The message that the act is about. A Take is about its port.
    pub fn message(&self) -> Option<MsgId> {
        match self {
            Act::Post { message, .. } => Some(message.id),
            Act::Accept { id, .. }
            | Act::Full { id, .. }
            | Act::Already { id, .. }
            | Act::ClientsFull { id, .. }
            | Act::Stale { id, .. }
            | Act::Early { id, .. }
            | Act::NoPort { id, .. }
            | Act::Elsewhere { id, .. }
            | Act::NoMember { id, .. }
            | Act::Choose { id, .. }
            | Act::Try { id, .. }
            | Act::Told { id, .. }
            | Act::Heard { id, .. }
            | Act::Gone { id, .. } => Some(*id),
            _ => None,
        }
    }

    /// Whether each name in it is of the kind that it stands for.
    pub fn has_kinds(&self) -> bool {
        let is_port = |ui: &Ui| ui.is(Kind::Port);
        let is_actor = |ui: &Ui| ui.is(Kind::Actor);
        let is_group = |ui: &Ui| ui.is(Kind::Group);
        match self {
            Act::Make { port, actor, .. } | Act::Rehome { port, actor } | Act::Depart { port, actor, .. } => {
                is_port(port) && is_actor(actor)
            }
            Act::MakeFull { actor } | Act::NoActor { actor } => is_actor(actor),
            Act::Post { message, dest } => {
                let tag = match &message.tag {
                    Tag::Request { back, .. } => is_port(back),
                    _ => true,
                };
                let dest = match dest {
                    Dest::Port(port) => is_port(port),
                    Dest::All(group) | Dest::One(group) | Dest::OneAt(group, _) => is_group(group),
                };
                tag && dest
            }
            Act::Accept { port, .. }
            | Act::Full { port, .. }
            | Act::Already { port, .. }
            | Act::ClientsFull { port, .. }
            | Act::Stale { port, .. }
            | Act::Early { port, .. }
            | Act::NoPort { port, .. }
            | Act::Elsewhere { port, .. }
            | Act::Try { port, .. }
            | Act::Take { port, .. }
            | Act::Empty { port }
            | Act::NotHere { port }
            | Act::Arrive { port, .. }
            | Act::Delete { port, .. }
            | Act::Gone { port, .. } => is_port(port),
            Act::NoMember { group, .. }
            | Act::GroupMake { group }
            | Act::NoGroup { group }
            | Act::MembersFull { group } => is_group(group),
            Act::Choose { group, members, .. } => is_group(group) && members.iter().all(is_port),
            Act::Join { group, port }
            | Act::Leave { group, port }
            | Act::There { group, port }
            | Act::NotThere { group, port } => is_group(group) && is_port(port),
            Act::NoSite { .. }
            | Act::Told { .. }
            | Act::Heard { .. }
            | Act::Done { .. }
            | Act::Late { .. }
            | Act::GroupsFull { .. }
            | Act::Outstanding { .. }
            | Act::NoCall
            | Act::NoRequest
            | Act::Cancel { .. } => true,
        }
    }
}

/// The number of a decimal without sign and without leading zeros.
pub fn decimal(text: &[u8]) -> Option<u64> {
    if text.is_empty() || text.len() > 1 && text[0] == b'0' {
        return None;
    }
    let mut number: u64 = 0;
    for c in text {
        if !c.is_ascii_digit() {
            return None;
        }
        number = number.checked_mul(10)?.checked_add(u64::from(c - b'0'))?;
    }
    Some(number)
}

/// The words of a line that are left to read.
struct Words<'a> {
    left: Option<&'a [u8]>,
}

impl<'a> Words<'a> {
    fn next(&mut self) -> Option<&'a [u8]> {
        let text = self.left?;
        match text.iter().position(|c| *c == b' ') {
            Some(at) => {
                self.left = Some(&text[at + 1..]);
                Some(&text[..at])
            }
            None => {
                self.left = None;
                Some(text)
            }
        }
    }

    fn u64(&mut self) -> Option<u64> {
        decimal(self.next()?)
    }

    fn u32(&mut self) -> Option<u32> {
        u32::try_from(self.u64()?).ok()
    }

    fn u16(&mut self) -> Option<u16> {
        u16::try_from(self.u64()?).ok()
    }

    fn u8(&mut self) -> Option<u8> {
        u8::try_from(self.u64()?).ok()
    }

    fn ui(&mut self) -> Option<Ui> {
        Ui::parse(self.next()?)
    }

    fn id(&mut self) -> Option<MsgId> {
        let mut parts = self.next()?.split(|c| *c == b':');
        let id = MsgId {
            seat: u32::try_from(decimal(parts.next()?)?).ok()?,
            number: u32::try_from(decimal(parts.next()?)?).ok()?,
            copy: u16::try_from(decimal(parts.next()?)?).ok()?,
        };
        parts.next().is_none().then_some(id)
    }

    fn dest(&mut self) -> Option<Dest> {
        match self.next()? {
            b"port" => Some(Dest::Port(self.ui()?)),
            b"all" => Some(Dest::All(self.ui()?)),
            b"one" => Some(Dest::One(self.ui()?)),
            b"at" => Some(Dest::OneAt(self.ui()?, self.u16()?)),
            _ => None,
        }
    }

    fn tag(&mut self) -> Option<Tag> {
        match self.next()? {
            b"plain" => Some(Tag::Plain),
            b"request" => Some(Tag::Request { number: self.u32()?, back: self.ui()? }),
            b"reply" => Some(Tag::Reply { client: self.u32()?, number: self.u32()? }),
            _ => None,
        }
    }

    fn answer(&mut self) -> Option<Answer> {
        match self.next()? {
            b"accepted" => Some(Answer::Accepted { pos: self.u64()? }),
            b"full" => Some(Answer::Full { len: self.u8()? }),
            b"stale" => Some(Answer::Stale { to: self.u16()?, hop: self.u64()? }),
            b"early" => Some(Answer::Early { hop: self.u64()? }),
            b"no-port" => Some(Answer::NoPort),
            b"already" => Some(Answer::Already),
            b"clients-full" => Some(Answer::ClientsFull),
            b"elsewhere" => Some(Answer::Elsewhere { to: self.u16()?, hop: self.u64()? }),
            b"no-member" => Some(Answer::NoMember),
            b"chosen" => Some(Answer::Chosen { count: self.u16()? }),
            b"gone" => Some(Answer::Gone),
            _ => None,
        }
    }

    /// The body, which goes to the end of the line and may have spaces.
    fn body(&mut self) -> Option<Vec<u8>> {
        let [b'=', text @ ..] = self.left.take()? else {
            return None;
        };
        let mut body = Vec::with_capacity(text.len());
        let mut at = 0;
        while at < text.len() {
            let byte = match text[at] {
                b'%' => {
                    let byte = hex(*text.get(at + 1)?)? << 4 | hex(*text.get(at + 2)?)?;
                    if stands_for_itself(byte) {
                        return None;
                    }
                    at += 3;
                    byte
                }
                byte if stands_for_itself(byte) => {
                    at += 1;
                    byte
                }
                _ => return None,
            };
            body.push(byte);
        }
        (body.len() <= BODY).then_some(body)
    }

    #[rustfmt::skip]
    fn act(&mut self) -> Option<Act> {
        Some(match self.next()? {
            b"make" => Act::Make { port: self.ui()?, actor: self.ui()?, capacity: self.u8()? },
            b"make-full" => Act::MakeFull { actor: self.ui()? },
            b"no-actor" => Act::NoActor { actor: self.ui()? },
            b"no-site" => Act::NoSite { site: self.u16()? },
            b"post" => {
                let (id, dest, tag) = (self.id()?, self.dest()?, self.tag()?);
                Act::Post { message: Message { id, tag, body: self.body()? }, dest }
            }
            b"accept" => Act::Accept { id: self.id()?, port: self.ui()?, pos: self.u64()? },
            b"full" => Act::Full { id: self.id()?, port: self.ui()?, len: self.u8()? },
            b"already" => Act::Already { id: self.id()?, port: self.ui()? },
            b"clients-full" => Act::ClientsFull { id: self.id()?, port: self.ui()? },
            b"stale" => Act::Stale {
                id: self.id()?, port: self.ui()?, tried: self.u64()?, to: self.u16()?, hop: self.u64()?,
            },
            b"early" => Act::Early { id: self.id()?, port: self.ui()?, hop: self.u64()? },
            b"no-port" => Act::NoPort { id: self.id()?, port: self.ui()? },
            b"elsewhere" => Act::Elsewhere { id: self.id()?, port: self.ui()?, to: self.u16()?, hop: self.u64()? },
            b"no-member" => Act::NoMember { id: self.id()?, group: self.ui()? },
            b"choose" => {
                let (id, group, mut members) = (self.id()?, self.ui()?, Vec::new());
                while self.left.is_some() {
                    members.push(self.ui()?);
                }
                if members.len() > MEMBERS {
                    return None;
                }
                Act::Choose { id, group, members }
            }
            b"try" => Act::Try { id: self.id()?, port: self.ui()?, to: self.u16()?, hop: self.u64()? },
            b"told" => Act::Told { id: self.id()?, answer: self.answer()? },
            b"heard" => Act::Heard { id: self.id()?, answer: self.answer()? },
            b"take" => Act::Take { port: self.ui()?, pos: self.u64()?, id: self.id()? },
            b"done" => Act::Done { number: self.u32()? },
            b"late" => Act::Late { number: self.u32()? },
            b"empty" => Act::Empty { port: self.ui()? },
            b"not-here" => Act::NotHere { port: self.ui()? },
            b"rehome" => Act::Rehome { port: self.ui()?, actor: self.ui()? },
            b"depart" => Act::Depart { port: self.ui()?, to: self.u16()?, actor: self.ui()?, hop: self.u64()? },
            b"arrive" => Act::Arrive { port: self.ui()?, hop: self.u64()? },
            b"group" => Act::GroupMake { group: self.ui()? },
            b"groups-full" => Act::GroupsFull { site: self.u16()? },
            b"join" => Act::Join { group: self.ui()?, port: self.ui()? },
            b"leave" => Act::Leave { group: self.ui()?, port: self.ui()? },
            b"no-group" => Act::NoGroup { group: self.ui()? },
            b"there" => Act::There { group: self.ui()?, port: self.ui()? },
            b"not-there" => Act::NotThere { group: self.ui()?, port: self.ui()? },
            b"members-full" => Act::MembersFull { group: self.ui()? },
            b"outstanding" => Act::Outstanding { number: self.u32()? },
            b"no-call" => Act::NoCall,
            b"no-request" => Act::NoRequest,
            b"cancel" => Act::Cancel { number: self.u32()? },
            b"delete" => {
                let (port, mut discarded) = (self.ui()?, Vec::new());
                while self.left.is_some() {
                    discarded.push(self.id()?);
                }
                Act::Delete { port, discarded }
            }
            b"gone" => Act::Gone { id: self.id()?, port: self.ui()? },
            _ => return None,
        })
    }
}

fn hex(c: u8) -> Option<u8> {
    match c {
        b'0'..=b'9' => Some(c - b'0'),
        b'a'..=b'f' => Some(c - b'a' + 10),
        _ => None,
    }
}

pub fn stands_for_itself(byte: u8) -> bool {
    (0x20..=0x7e).contains(&byte) && byte != b'%'
}

/// The entry whose line this is, without its LF.
pub fn parse_entry(line: &[u8]) -> Option<Entry> {
    let mut words = Words { left: Some(line) };
    let entry = Entry { clock: words.u64()?, place: words.u16()?, seat: words.u32()?, act: words.act()? };
    words.left.is_none().then_some(entry)
}
