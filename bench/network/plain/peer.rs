//! What a node knows of one peer, of one inbound connection and of one incarnation that writes to it.
use crate::tables::{InTables, OutTable};
use crate::text::{Address, Message, Tell, Unique};
use std::collections::{HashSet, VecDeque};

/// System messages to a peer: numbered from 1 once its incarnation is known, kept until acknowledged.
#[derive(Default)]
pub struct Outbound {
    pub kept: VecDeque<Message>,
    pub learnt: bool,
    pub acknowledged: u64,
    pub written: u64,
}

impl Outbound {
    pub fn given(&self) -> u64 {
        self.acknowledged + self.kept.len() as u64
    }

    pub fn overflows(&self) -> bool {
        self.kept.len() >= 20_000
    }

    pub fn forget(&mut self) {
        *self = Outbound::default();
    }

    /// How many messages are given up, or None where the number was not given yet.
    pub fn acknowledge(&mut self, n: u64) -> Option<u64> {
        if n > self.given() {
            return None;
        }
        let gone = n.saturating_sub(self.acknowledged);
        self.kept.drain(..gone as usize);
        self.acknowledged += gone;
        self.written = self.written.max(self.acknowledged);
        Some(gone)
    }

    pub fn rewind(&mut self) {
        self.written = self.acknowledged;
    }

    /// The number of the next message to write, within the window.
    pub fn next(&mut self) -> Option<u64> {
        if !self.learnt || self.written >= self.given().min(self.acknowledged + 1_024) {
            return None;
        }
        self.written += 1;
        Some(self.written)
    }

    pub fn message(&self, n: u64) -> &Message {
        &self.kept[(n - self.acknowledged - 1) as usize]
    }
}

#[derive(Clone, Copy, PartialEq)]
pub enum State {
    Dialing,
    Asked { begun: u64, last: u64 },
    Bound(u64),
}

#[derive(Clone, Copy)]
pub struct OutConn {
    pub dial: u64,
    pub state: State,
}

/// Whether a watched peer is still heard.
#[derive(Default)]
pub struct Detector {
    first: Option<u64>,
    last: Option<u64>,
    pub beaten: Option<u64>,
}

impl Detector {
    pub fn ask(&mut self, now: u64) -> bool {
        match self.first {
            None => self.first = Some(now),
            Some(first) if self.last.is_none() && now >= first + 1_000 => self.last = Some(now),
            _ => {}
        }
        self.last.is_none_or(|last| last + 11_000 > now)
    }

    pub fn heard(&mut self, now: u64) {
        self.last = Some(now);
    }
}

pub struct Peer {
    pub address: Address,
    pub text: String,
    pub bytes: Vec<u8>,
    pub current: Option<u64>,
    pub closed: HashSet<u64>,
    pub out: Outbound,
    pub held: Vec<Tell>,
    pub refs: OutTable,
    pub manifests: OutTable,
    /// The control connection and the ordinary one.
    pub conns: [Option<OutConn>; 2],
    pub redial: [u64; 2],
    pub quiet: u64,
    pub patience: u64,
    pub used: u64,
    pub asleep: bool,
    pub detector: Detector,
}

impl Peer {
    pub fn unique(&self) -> Option<Unique> {
        self.current.map(|uid| Unique { address: self.address.clone(), uid })
    }

    /// The dial number of a connection that is bound to an incarnation.
    pub fn bound(&self, lane: usize, uid: u64) -> Option<u64> {
        self.conns[lane].filter(|conn| conn.state == State::Bound(uid)).map(|conn| conn.dial)
    }

    pub fn bound_to_current(&self, lane: usize) -> Option<u64> {
        self.bound(lane, self.current?)
    }
}

#[derive(Default)]
pub struct Inbound {
    pub bytes: Vec<u8>,
    pub stream: u8,
    /// The place of its origin, and the nonce of its request.
    pub known: Option<(usize, Option<u64>)>,
    pub owed: Option<(Option<u64>, Option<u64>)>,
    /// The last table numbers that were seen, of references and of manifests.
    pub shown: [Option<u64>; 2],
}

pub struct Origin {
    pub unique: Unique,
    pub text: String,
    pub peer: usize,
    pub taken: u64,
    pub tables: [InTables; 2],
    pub moment: u64,
    pub owes: bool,
}
