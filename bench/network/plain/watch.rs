//! Watches of one node, its actors, and who watches them from afar.
use crate::text::{reference, Address, Unique};
use std::collections::{BTreeMap, HashMap};

type Pair = (Vec<u8>, Vec<u8>);

/// Who watches an actor: by who it is, and in the order added.
#[derive(Default)]
struct Watchers {
    places: HashMap<(Vec<u8>, Unique), u64>,
    order: BTreeMap<u64, (Vec<u8>, Unique)>,
}

#[derive(Default)]
pub struct Watcher {
    ids: HashMap<Pair, u64>,
    at: HashMap<Address, BTreeMap<u64, Pair>>,
    last_id: u64,
    actors: HashMap<Vec<u8>, Watchers>,
    remote: usize,
    added: u64,
}

pub enum Added {
    NotThere,
    There,
    Full,
    Added,
}

fn address_of(watchee: &[u8]) -> Address {
    reference(watchee).expect("a watchee is a reference").0
}

impl Watcher {
    /// Why a watch is refused.
    pub fn refuses(&self, watcher: &[u8], watchee: &[u8]) -> Option<&'static str> {
        if self.ids.contains_key(&(watcher.to_vec(), watchee.to_vec())) {
            Some("watching")
        } else if self.ids.len() >= 4_096 || self.last_id == u64::MAX {
            Some("watches")
        } else {
            None
        }
    }

    pub fn watch(&mut self, watcher: &[u8], watchee: &[u8]) -> u64 {
        self.last_id += 1;
        let pair = (watcher.to_vec(), watchee.to_vec());
        self.ids.insert(pair.clone(), self.last_id);
        self.at.entry(address_of(watchee)).or_default().insert(self.last_id, pair);
        self.last_id
    }

    pub fn unwatch(&mut self, watcher: &[u8], watchee: &[u8]) -> Option<u64> {
        let id = self.ids.remove(&(watcher.to_vec(), watchee.to_vec()))?;
        let address = address_of(watchee);
        let there = self.at.get_mut(&address)?;
        there.remove(&id);
        if there.is_empty() {
            self.at.remove(&address);
        }
        Some(id)
    }

    pub fn closed(&mut self, address: &Address) -> Vec<u64> {
        let gone = self.at.remove(address).unwrap_or_default();
        for pair in gone.values() {
            self.ids.remove(pair);
        }
        gone.into_keys().collect()
    }

    pub fn watches_at(&self, address: &Address) -> bool {
        self.at.contains_key(address)
    }

    /// Why an actor is not spawned.
    pub fn spawn(&mut self, path: &[u8]) -> Option<&'static str> {
        if self.actors.contains_key(path) {
            return Some("exists");
        }
        if self.actors.len() >= 4_096 {
            return Some("actors");
        }
        self.actors.insert(path.to_vec(), Watchers::default());
        None
    }

    pub fn kill(&mut self, path: &[u8]) -> Option<Vec<Vec<u8>>> {
        let gone = self.actors.remove(path)?;
        self.remote -= gone.order.len();
        Some(gone.order.into_values().map(|(watcher, _)| watcher).collect())
    }

    pub fn remote_watch(&mut self, path: &[u8], watcher: &[u8], origin: &Unique) -> Added {
        let Some(watchers) = self.actors.get_mut(path) else { return Added::NotThere };
        let who = (watcher.to_vec(), origin.clone());
        if watchers.places.contains_key(&who) {
            return Added::There;
        }
        if self.remote >= 262_144 {
            return Added::Full;
        }
        self.added += 1;
        self.remote += 1;
        watchers.places.insert(who.clone(), self.added);
        watchers.order.insert(self.added, who);
        Added::Added
    }

    pub fn remote_unwatch(&mut self, path: &[u8], watcher: &[u8], origin: &Unique) {
        let Some(watchers) = self.actors.get_mut(path) else { return };
        if let Some(place) = watchers.places.remove(&(watcher.to_vec(), origin.clone())) {
            watchers.order.remove(&place);
            self.remote -= 1;
        }
    }

    pub fn forget(&mut self, origin: &Unique) {
        for watchers in self.actors.values_mut() {
            let before = watchers.order.len();
            watchers.places.retain(|(_, from), _| from != origin);
            watchers.order.retain(|_, (_, from)| from != origin);
            self.remote -= before - watchers.order.len();
        }
    }
}
