//! Compression tables, as a node announces and adopts them.
use std::collections::HashMap;

pub fn version_of(number: u64) -> u8 {
    if number == 0 { 0 } else { ((number - 1) % 127 + 1) as u8 }
}

#[derive(Default)]
pub struct OutTable {
    pub number: u64,
    indices: HashMap<Vec<u8>, u16>,
}

impl OutTable {
    pub fn adopt(&mut self, number: u64, keys: Vec<&[u8]>, values: Vec<u16>) -> std::cmp::Ordering {
        let order = number.cmp(&self.number);
        if order.is_gt() {
            self.number = number;
            self.indices = keys.into_iter().map(<[u8]>::to_vec).zip(values).collect();
        }
        order
    }

    pub fn index_of(&self, name: &[u8]) -> Option<u16> {
        if name.is_empty() { None } else { self.indices.get(name).copied() }
    }
}

#[derive(Default)]
struct Table {
    number: u64,
    names: Vec<Vec<u8>>,
}

pub enum Advertised {
    Nothing,
    Again,
    New,
}

#[derive(Default)]
pub struct InTables {
    counts: HashMap<Vec<u8>, (u32, usize)>,
    current: Table,
    waiting: Option<Table>,
    older: Vec<Table>,
}

impl InTables {
    pub fn number(&self) -> u64 {
        self.current.number
    }

    pub fn count(&mut self, name: &[u8]) {
        if name.is_empty() || name.len() > 256 {
            return;
        }
        let first = self.counts.len();
        match self.counts.get_mut(name) {
            Some((count, _)) => *count = count.saturating_add(1),
            None if first < 1_024 => {
                self.counts.insert(name.to_vec(), (1, first));
            }
            None => {}
        }
    }

    fn top(&self) -> Vec<Vec<u8>> {
        let mut ranked: Vec<(&Vec<u8>, &(u32, usize))> = self.counts.iter().collect();
        ranked.sort_by_key(|(_, (count, first))| (u32::MAX - count, *first));
        ranked.into_iter().take(256).map(|(name, _)| name.clone()).collect()
    }

    pub fn advertise(&mut self, settled: bool) -> Advertised {
        if self.waiting.is_some() {
            return Advertised::Again;
        }
        let names = self.top();
        if names.is_empty() || names == self.current.names || self.current.number == u64::MAX {
            return Advertised::Nothing;
        }
        let number = self.current.number + 1;
        if number >= 128 && !settled {
            return Advertised::Nothing;
        }
        self.waiting = Some(Table { number, names });
        Advertised::New
    }

    pub fn announced(&self) -> (u64, &[Vec<u8>]) {
        self.waiting.as_ref().map_or((0, &[]), |t| (t.number, &t.names))
    }

    pub fn confirm(&mut self, number: u64) -> bool {
        match self.waiting.take_if(|t| t.number == number) {
            Some(table) => {
                self.older.truncate(2);
                self.older.insert(0, std::mem::replace(&mut self.current, table));
                true
            }
            None => false,
        }
    }

    fn known(&self, version: u8) -> Option<(u64, &[Vec<u8>])> {
        if version == 0 {
            return Some((0, &[]));
        }
        let tables = self.waiting.iter().chain([&self.current]).chain(&self.older);
        tables.filter(|t| version_of(t.number) == version).map(|t| (t.number, t.names.as_slice())).next()
    }

    pub fn number_of(&self, version: u8) -> Option<u64> {
        self.known(version).map(|(number, _)| number)
    }

    /// The name, or what is unknown.
    pub fn resolve(&self, version: u8, index: u16) -> Result<&[u8], Unknown> {
        let (_, names) = self.known(version).ok_or(Unknown::Version(version))?;
        names.get(index as usize).map(Vec::as_slice).ok_or(Unknown::Index(version, index))
    }
}

pub enum Unknown {
    Version(u8),
    Index(u8, u16),
}
