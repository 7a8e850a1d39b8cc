//! Two plain Rust threads at condition variables, for a measure of `run` of scripts that wait (`bench/chorus_waits`): each
//! has a queue under a lock, and a message goes there and back so many times. No journal, no clock, no names.
//!
//!     rustc --edition 2024 -O -C target-cpu=x86-64 -o waits waits.rs
//!     ./waits 2047           prints microseconds there and back

use std::collections::VecDeque;
use std::sync::{Condvar, Mutex};
use std::time::Instant;

#[derive(Default)]
struct Port {
    waiting: Mutex<VecDeque<Vec<u8>>>,
    came: Condvar,
}

impl Port {
    fn send(&self, body: &[u8]) {
        self.waiting.lock().unwrap().push_back(body.to_vec());
        self.came.notify_one();
    }

    fn receive(&self) -> Vec<u8> {
        let mut waiting = self.waiting.lock().unwrap();
        loop {
            match waiting.pop_front() {
                Some(body) => return body,
                None => waiting = self.came.wait(waiting).unwrap(),
            }
        }
    }
}

fn main() {
    let rounds: u32 = std::env::args().nth(1).and_then(|it| it.parse().ok()).unwrap_or(2047);
    let (there, back) = (Port::default(), Port::default());
    let began = Instant::now();
    std::thread::scope(|scope| {
        scope.spawn(|| (0..rounds).for_each(|_| back.send(&there.receive())));
        for _ in 0..rounds {
            there.send(b"ball");
            back.receive();
        }
    });
    println!("{:.2}", began.elapsed().as_secs_f64() * 1e6 / f64::from(rounds));
}
