//! The summary of a journal, as docs/FORMATS.md has it. A part of `checker.rs` and of `load.rs`.

use crate::entry::{Act, Entry, Ui};
use std::collections::HashMap;

#[derive(Clone, Copy, Default, PartialEq, Eq)]
enum Spot {
    #[default]
    Nowhere,
    Held,
    Moving,
}

/// How many messages a port accepted and gave out, and where it is.
#[derive(Clone, Copy, Default)]
struct Queue {
    accepted: u64,
    taken: u64,
    spot: Spot,
}

#[derive(Default)]
struct Counts {
    posted: u64,
    accepted: u64,
    taken: u64,
    refused: u64,
    stale: u64,
    departs: u64,
    discarded: Option<u64>,
    queues: HashMap<Ui, Queue>,
}

impl Counts {
    fn queue(&mut self, port: Ui) -> &mut Queue {
        self.queues.entry(port).or_default()
    }

    fn count(&mut self, act: &Act) {
        match act {
            Act::Post { .. } => self.posted += 1,
            Act::Accept { port, .. } => {
                self.accepted += 1;
                self.queue(*port).accepted += 1;
            }
            Act::Take { port, .. } => {
                self.taken += 1;
                self.queue(*port).taken += 1;
            }
            Act::Full { .. }
            | Act::Early { .. }
            | Act::NoPort { .. }
            | Act::Already { .. }
            | Act::ClientsFull { .. }
            | Act::Elsewhere { .. }
            | Act::NoMember { .. }
            | Act::Gone { .. } => self.refused += 1,
            Act::Stale { .. } => self.stale += 1,
            Act::Depart { port, .. } => {
                self.departs += 1;
                self.queue(*port).spot = Spot::Moving;
            }
            Act::Make { port, .. } | Act::Arrive { port, .. } => self.queue(*port).spot = Spot::Held,
            Act::Delete { port, discarded } => {
                self.discarded = Some(self.discarded.unwrap_or(0) + discarded.len() as u64);
                self.queue(*port).spot = Spot::Nowhere;
            }
            _ => {}
        }
    }

    /// How many messages wait in the ports that are there.
    fn waiting(&self, spot: Spot) -> u64 {
        let ports = self.queues.values().filter(|queue| queue.spot == spot);
        ports.map(|queue| queue.accepted.saturating_sub(queue.taken)).sum()
    }
}

/// The summary text of the entries.
pub fn summary<'a>(entries: impl IntoIterator<Item = &'a Entry>) -> String {
    let mut counts = Counts::default();
    for entry in entries {
        counts.count(&entry.act);
    }
    let mut lines = vec![
        ("posted", counts.posted),
        ("accepted", counts.accepted),
        ("taken", counts.taken),
        ("queued", counts.waiting(Spot::Held)),
        ("moving", counts.waiting(Spot::Moving)),
        ("refused", counts.refused),
        ("stale", counts.stale),
        ("departs", counts.departs),
    ];
    if let Some(discarded) = counts.discarded {
        lines.insert(5, ("discarded", discarded));
    }
    let mut text = String::from("summary\n");
    for (word, number) in lines {
        text += &format!("{word} {number}\n");
    }
    text + "end\n"
}
