//! A network of nodes over bytes, event by event.
use crate::node::{Effect, Kind, Node};
use crate::script::{named, Event};
use crate::text::{put_digits, Address, Unique};
use std::collections::{BTreeSet, HashMap, HashSet};
use std::io::{self, Write};

pub enum Stop {
    NotAllowed(&'static str),
    Limit(&'static str),
    Failed,
}

#[derive(Clone, Copy, PartialEq)]
pub enum Form {
    Lines,
    Bytes,
    Moments,
    Counts,
}

/// What a run is told in.
pub struct Told {
    form: Form,
    out: Vec<u8>,
    pub lines: u64,
    pub counts: [u64; 6],
}

impl Told {
    pub fn flush(&mut self) -> io::Result<()> {
        io::stdout().write_all(&self.out)?;
        self.out.clear();
        Ok(())
    }

    pub fn put(&mut self, text: &str) {
        self.out.extend_from_slice(text.as_bytes());
    }

    fn line(&mut self, moment: u64, kind: Kind, text: &[u8]) {
        self.lines += 1;
        if kind != Kind::Other {
            self.counts[kind as usize] += 1;
        }
        if self.form == Form::Counts {
            return;
        }
        if self.form == Form::Moments {
            write!(self.out, "{moment} ").unwrap();
        }
        self.out.extend_from_slice(text);
    }

    fn write(&mut self, uid: u64, dial: u64, bytes: &[u8]) {
        if self.form == Form::Bytes {
            write!(self.out, "write {uid} {dial} ").unwrap();
            put_digits(bytes, &mut self.out);
            self.out.push(b'\n');
        }
    }
}

struct Connection {
    uid: u64,
    dial: u64,
    far: u64,
    number: u64,
    /// Bytes on their way begin at `start`.
    bytes: Vec<u8>,
    start: usize,
    undelivered: usize,
    written: u64,
    delivered: u64,
    near_open: bool,
    far_open: bool,
}

pub struct World {
    pub told: Told,
    started: HashSet<u64>,
    live: HashMap<u64, Node>,
    at: HashMap<Address, u64>,
    pending: HashMap<(u64, u64), (u64, Address)>,
    dials: u64,
    connections: Vec<Connection>,
    by_near: HashMap<(u64, u64), usize>,
    by_far: HashMap<(u64, u64), usize>,
    accepted: HashMap<u64, u64>,
    /// Of each dialer, the connections with an open near side, and those with an open far side.
    near_open: HashMap<u64, BTreeSet<usize>>,
    far_open: HashMap<u64, BTreeSet<usize>>,
    undelivered: usize,
    holding: BTreeSet<usize>,
}

impl World {
    pub fn new(form: Form) -> World {
        World {
            told: Told { form, out: Vec::new(), lines: 0, counts: [0; 6] },
            started: HashSet::new(),
            live: HashMap::new(),
            at: HashMap::new(),
            pending: HashMap::new(),
            dials: 0,
            connections: Vec::new(),
            by_near: HashMap::new(),
            by_far: HashMap::new(),
            accepted: HashMap::new(),
            near_open: HashMap::new(),
            far_open: HashMap::new(),
            undelivered: 0,
            holding: BTreeSet::new(),
        }
    }

    fn react(&mut self, uid: u64, input: impl FnOnce(&mut Node)) -> Result<(), Stop> {
        let Some(node) = self.live.get_mut(&uid) else { return Ok(()) };
        input(node);
        let (moment, mut done) = (node.moment, std::mem::take(&mut node.done));
        let (mut line, mut byte) = (0, 0);
        for effect in done.effects.drain(..) {
            match effect {
                Effect::Line(kind, end) => {
                    self.told.line(moment, kind, &done.text[line..end]);
                    line = end;
                }
                Effect::Dial(dial, address) => {
                    self.dials += 1;
                    self.pending.insert((uid, dial), (self.dials, address));
                }
                Effect::Write(dial, end) => {
                    self.write(uid, dial, &done.bytes[byte..end])?;
                    byte = end;
                }
                Effect::HangOut(dial) => {
                    if let Some(c) = self.by_near.get(&(uid, dial)) {
                        self.close_near(*c);
                    }
                }
                Effect::HangIn(number) => {
                    if let Some(c) = self.by_far.get(&(uid, number)) {
                        self.close_far(*c);
                    }
                }
            }
        }
        done.text.clear();
        done.bytes.clear();
        if let Some(node) = self.live.get_mut(&uid) {
            node.done = done;
        }
        Ok(())
    }

    fn write(&mut self, uid: u64, dial: u64, bytes: &[u8]) -> Result<(), Stop> {
        let Some(at) = self.by_near.get(&(uid, dial)).copied() else { return Ok(()) };
        let c = &mut self.connections[at];
        if !c.near_open {
            return Ok(());
        }
        if c.far_open {
            if self.undelivered + bytes.len() > 268_435_456 {
                return Err(Stop::Limit("undelivered"));
            }
            self.undelivered += bytes.len();
            c.undelivered += bytes.len();
            c.bytes.extend_from_slice(bytes);
            self.holding.insert(at);
        }
        c.written += bytes.len() as u64;
        self.told.write(uid, dial, bytes);
        Ok(())
    }

    fn close_near(&mut self, at: usize) {
        let c = &mut self.connections[at];
        c.near_open = false;
        if let Some(open) = self.near_open.get_mut(&c.uid) {
            open.remove(&at);
        }
    }

    fn close_far(&mut self, at: usize) {
        let c = &mut self.connections[at];
        c.far_open = false;
        self.undelivered -= c.undelivered;
        c.undelivered = 0;
        c.bytes = Vec::new();
        c.start = 0;
        self.holding.remove(&at);
        if let Some(open) = self.far_open.get_mut(&c.uid) {
            open.remove(&at);
        }
    }

    // ---- events

    pub fn apply(&mut self, event: Event) -> Result<(), Stop> {
        match event {
            Event::Start(unique) => self.start(unique)?,
            Event::Stop(uid) => self.stop(uid)?,
            Event::At(uid, request) => {
                let node = self.live_node(uid)?;
                if named(&request) == Some(&node.me.address) {
                    return Err(Stop::NotAllowed("own-address"));
                }
                self.react(uid, |node| node.request(request))?;
            }
            Event::Tick(uid, moment) => {
                if moment < self.live_node(uid)?.moment {
                    return Err(Stop::NotAllowed("moment-back"));
                }
                self.react(uid, |node| node.tick(moment))?;
            }
            Event::Answer(uid, dial) => {
                let (_, address) = self.pending.get(&(uid, dial)).ok_or(Stop::NotAllowed("no-dial"))?;
                let far = *self.at.get(address).ok_or(Stop::NotAllowed("nobody"))?;
                self.answer(uid, dial, far)?;
            }
            Event::Fail(uid, dial) => {
                self.pending.remove(&(uid, dial)).ok_or(Stop::NotAllowed("no-dial"))?;
                self.react(uid, |node| node.lost(dial))?;
            }
            Event::Carry(uid, dial, count) => {
                let at = self.made(uid, dial)?;
                if !self.connections[at].far_open {
                    return Err(Stop::NotAllowed("far-ended"));
                }
                if count > self.connections[at].undelivered as u64 {
                    return Err(Stop::NotAllowed("too-many"));
                }
                self.carry(at, count as usize)?;
            }
            Event::Cut(uid, dial) => {
                let at = self.made(uid, dial)?;
                if !self.connections[at].near_open {
                    return Err(Stop::NotAllowed("near-ended"));
                }
                self.cut(at)?;
            }
            Event::End(uid, dial) => {
                let at = self.made(uid, dial)?;
                if !self.connections[at].far_open {
                    return Err(Stop::NotAllowed("far-ended"));
                }
                self.end(at)?;
            }
            Event::CutAll(uid) => {
                for at in self.sides(uid, |world| &world.near_open)? {
                    if self.connections[at].near_open {
                        self.cut(at)?;
                    }
                }
            }
            Event::EndAll(uid) => {
                for at in self.sides(uid, |world| &world.far_open)? {
                    if self.connections[at].far_open {
                        self.end(at)?;
                    }
                }
            }
            Event::Pass(rounds) => {
                for _ in 0..rounds {
                    self.round()?;
                }
            }
        }
        if self.told.out.len() > 1 << 16 {
            self.told.flush().map_err(|_| Stop::Failed)?;
        }
        Ok(())
    }

    fn live_node(&self, uid: u64) -> Result<&Node, Stop> {
        self.live.get(&uid).ok_or(Stop::NotAllowed("not-live"))
    }

    fn made(&self, uid: u64, dial: u64) -> Result<usize, Stop> {
        self.by_near.get(&(uid, dial)).copied().ok_or(Stop::NotAllowed("no-connection"))
    }

    fn sides(&self, uid: u64, of: impl Fn(&World) -> &HashMap<u64, BTreeSet<usize>>) -> Result<Vec<usize>, Stop> {
        if !self.started.contains(&uid) {
            return Err(Stop::NotAllowed("not-started"));
        }
        Ok(of(self).get(&uid).into_iter().flatten().copied().collect())
    }

    fn start(&mut self, unique: Unique) -> Result<(), Stop> {
        let uid = unique.uid;
        if self.started.contains(&uid) {
            return Err(Stop::NotAllowed("used-uid"));
        }
        if self.at.contains_key(&unique.address) {
            return Err(Stop::NotAllowed("address-live"));
        }
        if self.live.len() >= 64 {
            return Err(Stop::Limit("nodes"));
        }
        self.started.insert(uid);
        self.at.insert(unique.address.clone(), uid);
        self.live.insert(uid, Node::start(unique));
        self.react(uid, |_| {})
    }

    fn stop(&mut self, uid: u64) -> Result<(), Stop> {
        let node = self.live.remove(&uid).ok_or(Stop::NotAllowed("not-live"))?;
        self.at.remove(&node.me.address);
        self.told.line(node.moment, Kind::Other, format!("{} stopped\n", node.me).as_bytes());
        self.pending.retain(|(near, _), _| *near != uid);
        for at in 0..self.connections.len() {
            if self.connections[at].uid == uid && self.connections[at].near_open {
                self.close_near(at);
            }
            if self.connections[at].far == uid && self.connections[at].far_open {
                self.close_far(at);
            }
        }
        Ok(())
    }

    fn answer(&mut self, uid: u64, dial: u64, far: u64) -> Result<(), Stop> {
        if self.connections.len() >= 100_000 {
            return Err(Stop::Limit("connections"));
        }
        self.pending.remove(&(uid, dial));
        let last = self.accepted.entry(far).or_insert(0);
        *last += 1;
        let (number, at) = (*last, self.connections.len());
        let (near_open, far_open) = (true, true);
        let (bytes, start, undelivered, written, delivered) = (Vec::new(), 0, 0, 0, 0);
        self.connections.push(Connection { uid, dial, far, number, bytes, start, undelivered, written, delivered, near_open, far_open });
        self.by_near.insert((uid, dial), at);
        self.by_far.insert((far, number), at);
        self.near_open.entry(uid).or_default().insert(at);
        self.far_open.entry(uid).or_default().insert(at);
        self.react(far, |node| node.accepted(number))?;
        self.react(uid, |node| node.dialed(dial))
    }

    fn carry(&mut self, at: usize, count: usize) -> Result<(), Stop> {
        let c = &mut self.connections[at];
        let (far, number, start) = (c.far, c.number, c.start);
        let mut bytes = std::mem::take(&mut c.bytes);
        c.undelivered -= count;
        c.delivered += count as u64;
        c.start += count;
        self.undelivered -= count;
        if c.undelivered == 0 {
            self.holding.remove(&at);
        }
        for piece in bytes[start..start + count].chunks(65_536) {
            self.react(far, |node| node.comes(number, piece))?;
        }
        let c = &mut self.connections[at];
        if c.far_open {
            if c.undelivered == 0 {
                bytes.clear();
                c.start = 0;
            }
            c.bytes = bytes;
        }
        Ok(())
    }

    fn cut(&mut self, at: usize) -> Result<(), Stop> {
        self.close_near(at);
        let (uid, dial) = (self.connections[at].uid, self.connections[at].dial);
        self.react(uid, |node| node.lost(dial))
    }

    fn end(&mut self, at: usize) -> Result<(), Stop> {
        self.close_far(at);
        let (far, number) = (self.connections[at].far, self.connections[at].number);
        self.react(far, |node| node.ended(number))
    }

    fn round(&mut self) -> Result<(), Stop> {
        let mut pending: Vec<(u64, u64, u64)> = self.pending.iter().map(|((uid, dial), (order, _))| (*order, *uid, *dial)).collect();
        pending.sort_unstable();
        for (_, uid, dial) in pending {
            let Some((_, address)) = self.pending.get(&(uid, dial)) else { continue };
            match self.at.get(address).copied() {
                Some(far) => self.answer(uid, dial, far)?,
                None => {
                    self.pending.remove(&(uid, dial));
                    self.react(uid, |node| node.lost(dial))?;
                }
            }
        }
        let mut from = 0;
        while let Some(at) = self.holding.range(from..).next().copied() {
            self.carry(at, self.connections[at].undelivered)?;
            from = at + 1;
        }
        Ok(())
    }

    pub fn tell_counts(&mut self) {
        for c in &self.connections {
            writeln!(self.told.out, "bytes {} {} {} {}", c.uid, c.dial, c.written, c.delivered).unwrap();
        }
    }
}
