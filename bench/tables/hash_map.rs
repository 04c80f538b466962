//! The same rounds over std's `HashMap`, in plain Rust.
use std::collections::{HashMap, VecDeque};
use std::hint::black_box;

const ROUNDS: usize = 1_000_000;
const DISTINCT: usize = 200;

#[allow(dead_code)]
struct Table {
    number: u64,
    version: u8,
    names: Vec<Vec<u8>>,
}

#[derive(Default)]
struct InTables {
    counts: HashMap<Vec<u8>, (u32, usize)>,
    announced: Option<Table>,
    confirmed: VecDeque<Table>,
}

impl InTables {
    fn count(&mut self, name: &[u8]) -> bool {
        if name.len() > 256 {
            return false;
        }
        if let Some(count) = self.counts.get_mut(name) {
            count.0 = count.0.saturating_add(1);
            return true;
        }
        let place = self.counts.len();
        if place >= 1_024 {
            return false;
        }
        self.counts.insert(name.to_vec(), (1, place));
        true
    }

    fn advertise(&mut self) {
        let mut ranked: Vec<_> = self.counts.iter().collect();
        ranked.sort_by(|named, other| other.1 .0.cmp(&named.1 .0).then(named.1 .1.cmp(&other.1 .1)));
        let names = ranked.iter().take(256).map(|named| named.0.clone()).collect();
        self.announced = Some(Table { number: 1, version: 1, names });
    }

    fn confirm(&mut self) {
        if let Some(table) = self.announced.take() {
            self.confirmed.push_front(table);
            self.confirmed.truncate(4);
        }
    }

    fn resolve(&self, version: u8, index: u16) -> Option<&[u8]> {
        let table = self.announced.iter().chain(&self.confirmed).find(|table| table.version == version)?;
        table.names.get(index as usize).map(|name| name.as_slice())
    }
}

fn main() {
    let names: Vec<Vec<u8>> = (0..DISTINCT).map(|number| format!("akka://B@h2:25520/user/receiver-{number:03}").into_bytes()).collect();
    let mut tables = InTables::default();
    for round in 0..ROUNDS {
        let _ = black_box(tables.count(&names[round * 7 % DISTINCT]));
    }
    tables.advertise();
    tables.confirm();
    let mut all: u64 = 0;
    for round in 0..ROUNDS {
        if let Some(name) = tables.resolve(1, (round * 7 % DISTINCT) as u16) {
            if let Some(last) = name.last() {
                all = all.wrapping_mul(31).wrapping_add(u64::from(*last));
            }
        }
    }
    println!("{all}");
}
