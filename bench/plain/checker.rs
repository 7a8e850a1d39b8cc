//! A plain Rust program that judges journals by the rules of the world, for a measure of the words `audit` of `chorus`
//! (docs/inside/BENCHMARKS.md, "Plain programs"). Written from docs/FORMATS.md and the step
//! relation in `crates/chorus_world/specs`, with the hash map of std and its hasher, and no `unsafe`. All forty acts and all
//! that they need are judged, and each entry is kept.
//!
//!     rustc --edition 2024 -O -C target-cpu=x86-64 -o checker checker.rs
//!     ./checker                            a short journal is judged
//!     ./checker time                       journals of three lengths are judged, and the rates printed
//!     ./checker time tables                the same, with a table for each of those that `crates/checker_ledger` has
//!     ./checker report                     the longest of these journals is printed, with its summary
//!     ./checker audit SITES TURNS < text   says whether a printed journal with its summary is legal
//!
//! `time` prints what `bench_parts checker` of commit 69363f89 does, so that `beside.py` can compare the two.

mod entry;
mod journal;
mod show;
mod summary;
mod tables;
mod world;

use entry::{Entry, Layout, parse_entry};
use std::io::{self, Read};
use std::time::Instant;

const FEW: usize = 1_024;

const MANY: usize = 32_768;

const MOST: usize = 262_144;

const ROUNDS: u32 = 3;

/// What takes entries, each where it may come next.
trait Judge {
    fn opening(layout: Layout) -> Self;

    /// Takes the entry and keeps it, or names the rule that refuses it.
    fn apply(&mut self, entry: Entry) -> Result<(), u8>;

    fn entries(&self) -> &[Entry];
}

impl Judge for world::World {
    fn opening(layout: Layout) -> Self {
        world::World::opening(layout)
    }

    fn apply(&mut self, entry: Entry) -> Result<(), u8> {
        world::World::apply(self, entry)
    }

    fn entries(&self) -> &[Entry] {
        world::World::entries(self)
    }
}

impl Judge for tables::World {
    fn opening(layout: Layout) -> Self {
        tables::World::opening(layout)
    }

    fn apply(&mut self, entry: Entry) -> Result<(), u8> {
        tables::World::apply(self, entry)
    }

    fn entries(&self) -> &[Entry] {
        tables::World::entries(self)
    }
}

/// How many entries are taken.
fn judge<W: Judge>(layout: Layout, entries: Vec<Entry>) -> usize {
    let mut world = W::opening(layout);
    let mut taken = 0;
    for entry in entries {
        if world.apply(entry).is_ok() {
            taken += 1;
        }
    }
    taken
}

/// One pass over the entries: the sum of their clocks and of the messages that they are about.
fn pass(entries: &[Entry]) -> u64 {
    let mut sum: u64 = 0;
    for entry in entries {
        let number = entry.act.message().map_or(0, |id| id.number);
        sum = sum.wrapping_add(entry.clock).wrapping_add(u64::from(number));
    }
    sum
}

/// Millions of entries per second.
fn rate_since(start: Instant, entries: usize) -> f64 {
    entries as f64 / start.elapsed().as_secs_f64() / 1_000_000.0
}

fn print_rates<W: Judge>(layout: Layout, least: usize) {
    let (mut judging, mut passing) = (0.0f64, 0.0f64);
    let (mut many, mut taken, mut sum) = (0, 0, 0);
    for _ in 0..ROUNDS {
        let entries = journal::journal(least);
        many = entries.len();
        let start = Instant::now();
        sum = pass(&entries);
        passing = passing.max(rate_since(start, many));
        let start = Instant::now();
        taken = judge::<W>(layout, entries);
        judging = judging.max(rate_since(start, many));
    }
    let ratio = passing / judging;
    println!(
        "{taken} of {many} entries taken ({sum}): {judging:.2} million entries/s, one pass {passing:.0}, ratio {ratio:.0}"
    );
}

fn time<W: Judge>(layout: Layout) {
    for least in [FEW, MANY, MOST] {
        print_rates::<W>(layout, least);
    }
}

/// The number in the first line, `journal N`, and the text behind that line.
fn told(text: &[u8]) -> Option<(u32, &[u8])> {
    let end = text.iter().position(|c| *c == b'\n')?;
    let number = entry::decimal(text[..end].strip_prefix(b"journal ")?)?;
    Some((u32::try_from(number).ok()?, &text[end + 1..]))
}

/// What an audit of the text finds.
fn audit<W: Judge>(layout: Layout, text: &[u8]) -> String {
    let Some((count, mut rest)) = told(text) else {
        return String::from("wrong line 1 rule 99");
    };
    let mut world = W::opening(layout);
    for taken in 0..count {
        let line = u64::from(taken) + 2;
        let Some(end) = rest.iter().position(|c| *c == b'\n') else {
            return format!("wrong line {line} rule 99");
        };
        let Some(entry) = parse_entry(&rest[..end]) else {
            return format!("wrong line {line} rule 99");
        };
        if let Err(rule) = world.apply(entry) {
            return format!("wrong line {line} rule {rule}");
        }
        rest = &rest[end + 1..];
    }
    let summary = summary::summary(world.entries());
    if rest == summary.as_bytes() {
        return format!("legal {count}");
    }
    let same = rest.iter().zip(summary.as_bytes()).take_while(|(one, other)| one == other);
    let shared = same.filter(|(one, _)| **one == b'\n').count() as u64;
    format!("wrong line {} rule 99", u64::from(count) + 2 + shared)
}

fn read_layout(sites: &str, turns: &str) -> Option<Layout> {
    let number = |word: &str| u16::try_from(entry::decimal(word.as_bytes())?).ok();
    Layout::new(number(sites)?, number(turns)?)
}

fn main() -> io::Result<()> {
    let words: Vec<String> = std::env::args().skip(1).collect();
    let words: Vec<&str> = words.iter().map(String::as_str).collect();
    let eight = Layout { sites: journal::SITES, turns: 1 };
    match words[..] {
        [] => {
            let entries = journal::journal(FEW);
            let many = entries.len();
            println!("{} of {many} entries taken", judge::<world::World>(eight, entries));
        }
        ["report"] => {
            let entries = journal::journal(MOST);
            print!("{}{}", show::journal_text(entries.iter()), summary::summary(&entries));
        }
        ["time"] => time::<world::World>(eight),
        ["time", "tables"] => time::<tables::World>(eight),
        ["audit", sites, turns] | ["audit", sites, turns, "tables"] => {
            let Some(layout) = read_layout(sites, turns) else {
                eprintln!("there is no such layout");
                std::process::exit(1);
            };
            let mut text = Vec::new();
            io::stdin().read_to_end(&mut text)?;
            let found = match words.len() {
                3 => audit::<world::World>(layout, &text),
                _ => audit::<tables::World>(layout, &text),
            };
            println!("{found}");
        }
        _ => {
            eprintln!("usage: checker, checker time [tables], checker report, or checker audit SITES TURNS [tables]");
            std::process::exit(1);
        }
    }
    Ok(())
}
