//! The same remote watches in std's `HashMap`s, in plain Rust.
use std::collections::HashMap;
use std::time::Instant;

const ACTORS: u64 = 64;
const WATCHERS: u64 = 4_096;
const ORIGINS: u64 = 262;

#[derive(Clone, PartialEq, Eq, Hash)]
struct Address {
    protocol: Vec<u8>,
    system: Vec<u8>,
    host: Vec<u8>,
    port: u16,
}

#[derive(Clone, PartialEq, Eq, Hash)]
struct UniqueAddress {
    address: Address,
    uid: u64,
}

/// The remote watches of each actor, each with the number by which its place in the order added is known.
#[derive(Default)]
struct Watcher {
    actors: HashMap<Vec<u8>, HashMap<(Vec<u8>, UniqueAddress), u64>>,
    remote: usize,
    next: u64,
}

impl Watcher {
    fn spawn(&mut self, path: &[u8]) {
        self.actors.entry(path.to_vec()).or_default();
    }

    fn remote_watch(&mut self, path: &Vec<u8>, watcher: &[u8], origin: &UniqueAddress) -> bool {
        let Some(remotes) = self.actors.get_mut(path) else { return false };
        let key = (watcher.to_vec(), origin.clone());
        if remotes.contains_key(&key) || self.remote >= 262_144 {
            return false;
        }
        self.next += 1;
        self.remote += 1;
        remotes.insert(key, self.next);
        true
    }

    fn remote_unwatch(&mut self, path: &Vec<u8>, watcher: &[u8], origin: &UniqueAddress) -> bool {
        let Some(remotes) = self.actors.get_mut(path) else { return false };
        let stood = remotes.remove(&(watcher.to_vec(), origin.clone())).is_some();
        self.remote -= stood as usize;
        stood
    }

    fn forget_origin(&mut self, origin: &UniqueAddress) {
        self.remote = 0;
        for remotes in self.actors.values_mut() {
            remotes.retain(|key, _| key.1 != *origin);
            self.remote += remotes.len();
        }
    }

    fn stop(&mut self, path: &[u8]) -> Option<Vec<Vec<u8>>> {
        let remotes = self.actors.remove(path)?;
        self.remote -= remotes.len();
        let mut watchers: Vec<(u64, Vec<u8>)> = remotes.into_iter().map(|(key, number)| (number, key.0)).collect();
        watchers.sort_unstable_by_key(|entry| entry.0);
        Some(watchers.into_iter().map(|entry| entry.1).collect())
    }
}

fn numbered(front: &str, number: u64) -> Vec<u8> {
    format!("{front}{number}").into_bytes()
}

fn main() {
    let paths: Vec<_> = (0..ACTORS).map(|number| numbered("/user/actor-", number)).collect();
    let watchers: Vec<_> = (0..WATCHERS).map(|number| numbered("akka://Sys@host:25520/user/watcher-", number)).collect();
    let origins: Vec<_> = (0..ORIGINS)
        .map(|uid| UniqueAddress {
            address: Address { protocol: b"akka".to_vec(), system: b"Sys".to_vec(), host: numbered("host-", uid), port: 25_520 },
            uid,
        })
        .collect();
    let mut all = Watcher::default();
    let start = Instant::now();
    for path in &paths {
        all.spawn(path);
    }
    let each = || watchers.iter().flat_map(|watcher| paths.iter().map(move |path| (path, watcher))).enumerate();
    let mut added = 0;
    for (number, (path, watcher)) in each() {
        added += all.remote_watch(path, watcher, &origins[number % 262]) as u64;
    }
    tell("remote_watch", added, start);
    let start = Instant::now();
    let mut removed = 0;
    for (number, (path, watcher)) in each() {
        removed += (number % 2 == 1 && all.remote_unwatch(path, watcher, &origins[number % 262])) as u64;
    }
    tell("remote_unwatch", removed, start);
    let start = Instant::now();
    let mut renewed = 0;
    for (number, (path, watcher)) in each() {
        let origin = &origins[number % 262];
        if number % 2 == 0 && all.remote_unwatch(path, watcher, origin) {
            all.remote_watch(path, watcher, origin);
            renewed += 1;
        }
    }
    tell("again", renewed, start);
    let start = Instant::now();
    all.forget_origin(&origins[4]);
    tell("forget_origin", 1, start);
    let start = Instant::now();
    let stood = paths.iter().map(|path| all.stop(path).map_or(0, |watchers| watchers.len() as u64)).sum();
    tell("stop", stood, start);
}

fn tell(what: &str, count: u64, start: Instant) {
    println!("{what} {count} {}", start.elapsed().as_micros());
}
