//! The lines of entries, as docs/FORMATS.md has them. A part of `checker.rs` and of `load.rs`.

use crate::entry::{Act, Answer, Dest, Entry, Kind, MsgId, Tag, Ui, stands_for_itself};
use std::fmt::{self, Display, Formatter};

impl Display for Ui {
    fn fmt(&self, f: &mut Formatter<'_>) -> fmt::Result {
        let letter = match () {
            () if self.is(Kind::Actor) => 'a',
            () if self.is(Kind::Port) => 'p',
            () => 'g',
        };
        write!(f, "{}.{letter}.{}", self.site(), self.number())
    }
}

impl Display for MsgId {
    fn fmt(&self, f: &mut Formatter<'_>) -> fmt::Result {
        write!(f, "{}:{}:{}", self.seat, self.number, self.copy)
    }
}

impl Display for Dest {
    fn fmt(&self, f: &mut Formatter<'_>) -> fmt::Result {
        match self {
            Dest::Port(port) => write!(f, "port {port}"),
            Dest::All(group) => write!(f, "all {group}"),
            Dest::One(group) => write!(f, "one {group}"),
            Dest::OneAt(group, site) => write!(f, "at {group} {site}"),
        }
    }
}

impl Display for Tag {
    fn fmt(&self, f: &mut Formatter<'_>) -> fmt::Result {
        match self {
            Tag::Plain => write!(f, "plain"),
            Tag::Request { number, back } => write!(f, "request {number} {back}"),
            Tag::Reply { client, number } => write!(f, "reply {client} {number}"),
        }
    }
}

impl Display for Answer {
    fn fmt(&self, f: &mut Formatter<'_>) -> fmt::Result {
        match self {
            Answer::Accepted { pos } => write!(f, "accepted {pos}"),
            Answer::Full { len } => write!(f, "full {len}"),
            Answer::Stale { to, hop } => write!(f, "stale {to} {hop}"),
            Answer::Early { hop } => write!(f, "early {hop}"),
            Answer::NoPort => write!(f, "no-port"),
            Answer::Already => write!(f, "already"),
            Answer::ClientsFull => write!(f, "clients-full"),
            Answer::Elsewhere { to, hop } => write!(f, "elsewhere {to} {hop}"),
            Answer::NoMember => write!(f, "no-member"),
            Answer::Chosen { count } => write!(f, "chosen {count}"),
            Answer::Gone => write!(f, "gone"),
        }
    }
}

struct Body<'a>(&'a [u8]);

impl Display for Body<'_> {
    fn fmt(&self, f: &mut Formatter<'_>) -> fmt::Result {
        for byte in self.0 {
            if stands_for_itself(*byte) {
                write!(f, "{}", char::from(*byte))?;
            } else {
                write!(f, "%{byte:02x}")?;
            }
        }
        Ok(())
    }
}

impl Display for Act {
    fn fmt(&self, f: &mut Formatter<'_>) -> fmt::Result {
        match self {
            Act::Make { port, actor, capacity } => write!(f, "make {port} {actor} {capacity}"),
            Act::MakeFull { actor } => write!(f, "make-full {actor}"),
            Act::NoActor { actor } => write!(f, "no-actor {actor}"),
            Act::NoSite { site } => write!(f, "no-site {site}"),
            Act::Post { message, dest } => {
                write!(f, "post {} {dest} {} ={}", message.id, message.tag, Body(&message.body))
            }
            Act::Accept { id, port, pos } => write!(f, "accept {id} {port} {pos}"),
            Act::Full { id, port, len } => write!(f, "full {id} {port} {len}"),
            Act::Already { id, port } => write!(f, "already {id} {port}"),
            Act::ClientsFull { id, port } => write!(f, "clients-full {id} {port}"),
            Act::Stale { id, port, tried, to, hop } => write!(f, "stale {id} {port} {tried} {to} {hop}"),
            Act::Early { id, port, hop } => write!(f, "early {id} {port} {hop}"),
            Act::NoPort { id, port } => write!(f, "no-port {id} {port}"),
            Act::Elsewhere { id, port, to, hop } => write!(f, "elsewhere {id} {port} {to} {hop}"),
            Act::NoMember { id, group } => write!(f, "no-member {id} {group}"),
            Act::Choose { id, group, members } => {
                write!(f, "choose {id} {group}")?;
                members.iter().try_for_each(|port| write!(f, " {port}"))
            }
            Act::Try { id, port, to, hop } => write!(f, "try {id} {port} {to} {hop}"),
            Act::Told { id, answer } => write!(f, "told {id} {answer}"),
            Act::Heard { id, answer } => write!(f, "heard {id} {answer}"),
            Act::Take { port, pos, id } => write!(f, "take {port} {pos} {id}"),
            Act::Done { number } => write!(f, "done {number}"),
            Act::Late { number } => write!(f, "late {number}"),
            Act::Empty { port } => write!(f, "empty {port}"),
            Act::NotHere { port } => write!(f, "not-here {port}"),
            Act::Rehome { port, actor } => write!(f, "rehome {port} {actor}"),
            Act::Depart { port, to, actor, hop } => write!(f, "depart {port} {to} {actor} {hop}"),
            Act::Arrive { port, hop } => write!(f, "arrive {port} {hop}"),
            Act::GroupMake { group } => write!(f, "group {group}"),
            Act::GroupsFull { site } => write!(f, "groups-full {site}"),
            Act::Join { group, port } => write!(f, "join {group} {port}"),
            Act::Leave { group, port } => write!(f, "leave {group} {port}"),
            Act::NoGroup { group } => write!(f, "no-group {group}"),
            Act::There { group, port } => write!(f, "there {group} {port}"),
            Act::NotThere { group, port } => write!(f, "not-there {group} {port}"),
            Act::MembersFull { group } => write!(f, "members-full {group}"),
            Act::Outstanding { number } => write!(f, "outstanding {number}"),
            Act::NoCall => write!(f, "no-call"),
            Act::NoRequest => write!(f, "no-request"),
            Act::Cancel { number } => write!(f, "cancel {number}"),
            Act::Delete { port, discarded } => {
                write!(f, "delete {port}")?;
                discarded.iter().try_for_each(|id| write!(f, " {id}"))
            }
            Act::Gone { id, port } => write!(f, "gone {id} {port}"),
        }
    }
}

impl Display for Entry {
    fn fmt(&self, f: &mut Formatter<'_>) -> fmt::Result {
        writeln!(f, "{} {} {} {}", self.clock, self.place, self.seat, self.act)
    }
}

/// The journal text of the entries, without their summary.
pub fn journal_text<'a>(entries: impl ExactSizeIterator<Item = &'a Entry>) -> String {
    let mut text = format!("journal {}\n", entries.len());
    for entry in entries {
        text += &entry.to_string();
    }
    text
}
