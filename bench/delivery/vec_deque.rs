//! The same rounds over std's `VecDeque`, in plain Rust.
use std::collections::VecDeque;
use std::hint::black_box;

const ROUNDS: u64 = 10_000_000;
const BEHIND: u64 = 64;
const WINDOW: u64 = 1_024;
const MOST_KEPT: usize = 20_000;

#[allow(dead_code)]
struct Message {
    serializer: i32,
    manifest: Vec<u8>,
    payload: Vec<u8>,
}

struct Outbound {
    kept: VecDeque<Message>,
    acknowledged: u64,
    written: u64,
}

impl Outbound {
    fn accept(&mut self, message: Message) -> Result<u64, Message> {
        if self.kept.len() >= MOST_KEPT || self.acknowledged + self.kept.len() as u64 >= u64::MAX - 1 {
            return Err(message);
        }
        self.kept.push_back(message);
        Ok(self.acknowledged + self.kept.len() as u64)
    }

    fn pump(&mut self) -> Option<(u64, &Message)> {
        let ahead = self.written - self.acknowledged;
        if ahead >= WINDOW || ahead >= self.kept.len() as u64 {
            return None;
        }
        self.written += 1;
        Some((self.written, &self.kept[ahead as usize]))
    }

    fn ack(&mut self, n: u64) -> Option<u64> {
        if n > self.acknowledged + self.kept.len() as u64 {
            return None;
        }
        let count = n.saturating_sub(self.acknowledged);
        self.kept.drain(..count as usize);
        self.acknowledged = self.acknowledged.max(n);
        self.written = self.written.max(n);
        Some(count)
    }
}

fn main() {
    let mut outbound = Outbound { kept: VecDeque::new(), acknowledged: 0, written: 0 };
    let mut all = 0;
    for number in 1..=ROUNDS {
        let message = Message { serializer: 5, manifest: Vec::new(), payload: Vec::new() };
        let _ = black_box(outbound.accept(message));
        all ^= match outbound.pump() {
            Some((n, message)) => n ^ (black_box(message.serializer) as u64 & 0),
            None => 0,
        };
        if number > BEHIND {
            let _ = black_box(outbound.ack(number - BEHIND));
        }
    }
    println!("{all}");
}
