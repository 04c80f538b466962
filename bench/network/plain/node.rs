//! One node: what it does at each input.
use crate::peer::{Detector, Inbound, Origin, OutConn, Outbound, Peer, State};
use crate::script::Request;
use crate::tables::{version_of, Advertised, InTables, OutTable, Unknown};
use crate::text::{self, put_hex, put_word, Address, Message, Tell, Unique};
use crate::watch::{Added, Watcher};
use crate::wire::{self, put_bytes, put_uint, Control, Name};
use std::collections::{HashMap, HashSet};
use std::fmt::Display;
use std::io::Write;

const CONTROL: usize = 0;
const ORDINARY: usize = 1;

#[derive(Clone, Copy, PartialEq)]
pub enum Kind {
    Sent,
    Took,
    Told,
    Got,
    Closed,
    Terminated,
    Other,
}

/// A deed; the texts and bytes of all stand one behind the other, and each deed has the place where its own end.
pub enum Effect {
    Line(Kind, usize),
    Dial(u64, Address),
    Write(u64, usize),
    HangOut(u64),
    HangIn(u64),
}

#[derive(Default)]
pub struct Done {
    pub effects: Vec<Effect>,
    pub text: Vec<u8>,
    pub bytes: Vec<u8>,
}

impl Done {
    fn end_line(&mut self, kind: Kind) {
        self.text.push(b'\n');
        self.effects.push(Effect::Line(kind, self.text.len()));
    }

    fn end_write(&mut self, dial: u64) {
        self.effects.push(Effect::Write(dial, self.bytes.len()));
    }

    fn control(&mut self, dial: u64, uid: u64, letter: u8, fields: impl FnOnce(&mut Vec<u8>)) {
        let start = wire::begin_control(uid, letter, &mut self.bytes);
        fields(&mut self.bytes);
        wire::end_frame(start, &mut self.bytes);
        self.end_write(dial);
    }

    fn system_line(&mut self, kind: Kind, head: (&str, &str, &str), n: u64, serializer: i32, manifest: &[u8], payload: &[u8]) {
        let (me, word, other) = head;
        write!(self.text, "{me} {word} {other} {n} {serializer} ").unwrap();
        put_word(manifest, &mut self.text);
        self.text.push(b' ');
        put_hex(payload, &mut self.text);
        self.end_line(kind);
    }

    fn ordinary_line(&mut self, kind: Kind, names: [&[u8]; 3], serializer: i32, payload: &[u8]) {
        for name in &names[..2] {
            self.text.push(b' ');
            put_word(name, &mut self.text);
        }
        write!(self.text, " {serializer} ").unwrap();
        put_word(names[2], &mut self.text);
        self.text.push(b' ');
        put_hex(payload, &mut self.text);
        self.end_line(kind);
    }
}

pub struct Node {
    pub me: Unique,
    pub moment: u64,
    pub done: Done,
    text: String,
    bytes: Vec<u8>,
    dials: u64,
    peers: Vec<Peer>,
    peer_at: HashMap<Address, usize>,
    inbound: HashMap<u64, Inbound>,
    origins: Vec<Origin>,
    origin_at: HashMap<Unique, usize>,
    watcher: Watcher,
}

/// Why a frame is dropped.
enum Fault<'a> {
    Word(&'static str),
    Name(&'a str, Unknown),
}

type Names<'a> = [&'a [u8]; 3];

enum Said<'a, 'f> {
    Control(Control<'f>),
    Ordinary { names: Names<'a>, literal: [bool; 3], serializer: i32, payload: &'a [u8], versions: [u8; 2] },
}

fn resolve<'a>(name: &Name<'a>, place: usize, version: u8, tables: Option<&'a InTables>) -> Result<&'a [u8], Fault<'a>> {
    const WHICH: [&str; 3] = ["sender", "recipient", "manifest"];
    match (name, tables) {
        (Name::Literal(text), _) => Ok(text),
        (Name::Index(index), Some(tables)) => tables.resolve(version, *index).map_err(|u| Fault::Name(WHICH[place], u)),
        (Name::Index(index), None) if version == 0 => Err(Fault::Name(WHICH[place], Unknown::Index(0, *index))),
        (Name::Index(_), None) => Err(Fault::Name(WHICH[place], Unknown::Version(version))),
    }
}

fn said<'a, 'f: 'a>(inbound: &Inbound, origins: &'a [Origin], frame: &'f [u8]) -> Result<Said<'a, 'f>, Fault<'a>> {
    let e = wire::envelope(frame).ok_or(Fault::Word("header"))?;
    let origin = inbound.known.map(|(at, _)| &origins[at]);
    if origin.is_some_and(|origin| origin.unique.uid != e.uid) {
        return Err(Fault::Word("uid"));
    }
    let [refs, manifests] = [0, 1].map(|kind| origin.map(|origin| &origin.tables[kind]));
    let sender = resolve(&e.names[0], 0, e.refs, refs)?;
    let recipient = resolve(&e.names[1], 1, e.refs, refs)?;
    let manifest = resolve(&e.names[2], 2, e.manifests, manifests)?;
    if (inbound.stream == 1 && e.serializer != 17) || (inbound.stream == 2 && e.serializer == 17 && manifest != b"d") {
        return Err(Fault::Word("stream"));
    }
    let said = if e.serializer == 17 {
        let letter = if manifest.len() == 1 { manifest[0] } else { 0 };
        Said::Control(wire::control_in(letter, e.payload).ok_or(Fault::Word("control"))?)
    } else {
        let literal = e.names.map(|name| matches!(name, Name::Literal(_)));
        Said::Ordinary { names: [sender, recipient, manifest], literal, serializer: e.serializer, payload: e.payload, versions: [e.refs, e.manifests] }
    };
    let is_handshake = matches!(said, Said::Control(Control::Request { .. } | Control::Response { .. }));
    if origin.is_none() && !is_handshake {
        return Err(Fault::Word("no-handshake"));
    }
    if let Said::Control(control) = &said {
        let from = wire::said_by(control);
        let is_other = |from: &Unique| from.uid != e.uid || origin.is_some_and(|origin| origin.unique != *from);
        if from.is_some_and(is_other) || matches!(control, Control::HeartbeatAnswer { uid } if *uid != e.uid) {
            return Err(Fault::Word("from"));
        }
    }
    Ok(said)
}

impl Node {
    pub fn start(me: Unique) -> Node {
        let mut node = Node {
            text: me.to_string(),
            bytes: wire::unique_bytes(&me),
            me,
            moment: 0,
            done: Done::default(),
            dials: 0,
            peers: Vec::new(),
            peer_at: HashMap::new(),
            inbound: HashMap::new(),
            origins: Vec::new(),
            origin_at: HashMap::new(),
            watcher: Watcher::default(),
        };
        node.line(Kind::Other, "started");
        node
    }

    fn line(&mut self, kind: Kind, what: impl Display) {
        write!(self.done.text, "{} {what}", self.text).unwrap();
        self.done.end_line(kind);
    }

    fn refused(&mut self, why: &str) {
        self.line(Kind::Other, format_args!("refused {why}"));
    }

    /// Where the control connection to an incarnation is bound to it, a control message goes on it.
    fn on_control_to(&mut self, at: usize, uid: u64, letter: u8, fields: impl FnOnce(&mut Vec<u8>)) -> bool {
        let Some(dial) = self.peers[at].bound(CONTROL, uid) else { return false };
        self.done.control(dial, self.me.uid, letter, fields);
        true
    }

    fn dials(&mut self, at: usize, lane: usize) {
        self.dials += 1;
        let dial = self.dials;
        self.done.effects.push(Effect::Dial(dial, self.peers[at].address.clone()));
        self.peers[at].conns[lane] = Some(OutConn { dial, state: State::Dialing });
    }

    fn hang_out(&mut self, at: usize, lane: usize, redial: bool) {
        let peer = &mut self.peers[at];
        let Some(conn) = peer.conns[lane].take() else { return };
        self.done.effects.push(Effect::HangOut(conn.dial));
        if redial {
            peer.redial[lane] = self.moment + 1_000;
        }
    }

    fn make_peer(&mut self, address: &Address) -> Option<usize> {
        if let Some(at) = self.peer_at.get(address) {
            return Some(*at);
        }
        let at = self.peers.len();
        if at >= 64 {
            return None;
        }
        self.peer_at.insert(address.clone(), at);
        self.peers.push(Peer {
            address: address.clone(),
            text: address.to_string(),
            bytes: wire::address_bytes(address),
            current: None,
            closed: HashSet::new(),
            out: Outbound::default(),
            held: Vec::new(),
            refs: OutTable::default(),
            manifests: OutTable::default(),
            conns: [None, None],
            redial: [0, 0],
            quiet: 0,
            patience: 0,
            used: 0,
            asleep: false,
            detector: Detector::default(),
        });
        self.dials(at, CONTROL);
        Some(at)
    }

    fn used(&mut self, at: usize) {
        self.peers[at].used = self.moment;
        if self.peers[at].asleep {
            self.peers[at].asleep = false;
            self.dials(at, CONTROL);
        }
    }

    // ---- requests

    fn requested_peer(&mut self, address: &Address) -> Option<usize> {
        let at = self.make_peer(address);
        match at {
            Some(at) => self.used(at),
            None => self.refused("peers"),
        }
        at
    }

    pub fn request(&mut self, request: Request) {
        match request {
            Request::Pair(address) => {
                self.requested_peer(&address);
            }
            Request::Send(address, message) => {
                if let Some(at) = self.requested_peer(&address) {
                    self.send(at, message);
                }
            }
            Request::Tell(address, message) => {
                if let Some(at) = self.requested_peer(&address) {
                    self.tell(at, message);
                }
            }
            Request::Watch(path, address, watchee) => self.watch(&path, &address, &watchee),
            Request::Unwatch(path, address, watchee) => self.unwatch(&path, &address, &watchee),
            Request::Spawn(path) => match self.watcher.spawn(&path) {
                None => self.line(Kind::Other, format_args!("spawned {}", String::from_utf8_lossy(&path))),
                Some(why) => self.refused(why),
            },
            Request::Kill(path) => self.kill(&path),
            Request::Quarantine(address) => match self.peer_at.get(&address) {
                Some(at) if self.peers[*at].current.is_some() => self.close(*at, "quarantined"),
                _ => self.refused("not-current"),
            },
        }
    }

    fn sent_lines(&mut self, at: usize, numbers: std::ops::RangeInclusive<u64>) {
        let peer = &self.peers[at];
        let Some(uid) = peer.current else { return };
        let other = format!("{}#{uid}", peer.text);
        for n in numbers {
            let m = peer.out.message(n);
            self.done.system_line(Kind::Sent, (&self.text, "sent", &other), n, m.serializer, &m.manifest, &m.payload);
        }
    }

    fn pump(&mut self, at: usize) {
        let Node { peers, done, bytes, me, .. } = self;
        let peer = &mut peers[at];
        while let Some(n) = peer.out.next() {
            let Some(dial) = peer.bound_to_current(CONTROL) else { continue };
            let m = peer.out.message(n);
            done.control(dial, me.uid, b'j', |out| {
                put_bytes(1, &m.payload, out);
                put_uint(2, m.serializer as i64 as u64, out);
                if !m.manifest.is_empty() {
                    put_bytes(3, &m.manifest, out);
                }
                put_uint(4, n, out);
                put_bytes(5, bytes, out);
            });
        }
    }

    fn send(&mut self, at: usize, message: Message) {
        self.used(at);
        let now = self.moment;
        let peer = &mut self.peers[at];
        if peer.out.overflows() {
            return if peer.current.is_some() { self.close(at, "overflow") } else { self.refused("waiting") };
        }
        let nothing_kept = peer.out.kept.is_empty();
        peer.out.kept.push_back(message);
        if peer.current.is_none() {
            return;
        }
        if nothing_kept {
            (peer.quiet, peer.patience) = (now, now);
        }
        let n = peer.out.given();
        self.sent_lines(at, n..=n);
        self.pump(at);
    }

    fn tell(&mut self, at: usize, message: Tell) {
        let peer = &mut self.peers[at];
        if let Some(dial) = peer.bound_to_current(ORDINARY) {
            self.tell_now(at, dial, &message);
        } else if peer.held.len() >= 3_072 {
            self.refused("held");
        } else {
            peer.held.push(message);
        }
    }

    fn tell_now(&mut self, at: usize, dial: u64, m: &Tell) {
        let Node { peers, done, me, text, .. } = self;
        let peer = &peers[at];
        write!(done.text, "{text} told {}#{} {dial}", peer.text, peer.current.unwrap_or(0)).unwrap();
        done.ordinary_line(Kind::Told, [&m.sender, &m.recipient, &m.manifest], m.serializer, &m.payload);
        let start = done.bytes.len();
        wire::begin_frame(me.uid, version_of(peer.refs.number), version_of(peer.manifests.number), m.serializer, &mut done.bytes);
        for (place, name, table) in [(0, &m.sender, &peer.refs), (1, &m.recipient, &peer.refs), (2, &m.manifest, &peer.manifests)] {
            wire::put_name(start, place, name, table.index_of(name), &mut done.bytes);
        }
        done.bytes.extend_from_slice(&m.payload);
        wire::end_frame(start, &mut done.bytes);
        done.end_write(dial);
    }

    fn own_reference(&self, path: &[u8]) -> Vec<u8> {
        let mut out = self.me.address.to_string().into_bytes();
        out.extend_from_slice(path);
        out
    }

    fn send_notice(&mut self, at: usize, letter: u8, actor: &[u8], watcher: &[u8]) {
        self.send(at, Message { serializer: 9_001, manifest: vec![letter], payload: wire::notice(actor, watcher) });
    }

    fn watch(&mut self, path: &[u8], address: &Address, watchee: &[u8]) {
        let Some(at) = self.requested_peer(address) else { return };
        let watcher = self.own_reference(path);
        let refusal = self.watcher.refuses(&watcher, watchee);
        if let Some(why) = refusal {
            self.refused(why);
        } else if self.peers[at].out.overflows() && self.peers[at].current.is_none() {
            self.refused("waiting");
        } else {
            let id = self.watcher.watch(&watcher, watchee);
            let (own, other) = (String::from_utf8_lossy(&watcher), String::from_utf8_lossy(watchee));
            self.line(Kind::Other, format_args!("watched {id} {own} {other}"));
            self.send_notice(at, b'W', watchee, &watcher);
        }
    }

    fn unwatch(&mut self, path: &[u8], address: &Address, watchee: &[u8]) {
        let Some(at) = self.requested_peer(address) else { return };
        let watcher = self.own_reference(path);
        let Some(id) = self.watcher.unwatch(&watcher, watchee) else { return self.refused("not-watched") };
        self.line(Kind::Other, format_args!("unwatched {id}"));
        self.send_notice(at, b'U', watchee, &watcher);
        self.last_watch(at);
    }

    fn last_watch(&mut self, at: usize) {
        if !self.watcher.watches_at(&self.peers[at].address) {
            self.peers[at].detector = Detector::default();
        }
    }

    fn kill(&mut self, path: &[u8]) {
        let Some(watchers) = self.watcher.kill(path) else { return self.refused("not-there") };
        self.line(Kind::Other, format_args!("ended {}", String::from_utf8_lossy(path)));
        let actor = self.own_reference(path);
        for watcher in watchers {
            let peer = text::reference(&watcher).and_then(|(address, _)| self.peer_at.get(&address).copied());
            if let Some(at) = peer {
                self.send_notice(at, b'D', &actor, &watcher);
            }
        }
    }

    fn close(&mut self, at: usize, cause: &str) {
        let Some(other) = self.peers[at].unique() else { return };
        self.line(Kind::Closed, format_args!("closed {other} {cause}"));
        let peer = &mut self.peers[at];
        peer.out.forget();
        peer.closed.insert(other.uid);
        peer.current = None;
        if cause != "superseded" {
            self.quarantined(at, &other);
        }
        self.hang_out(at, ORDINARY, false);
        self.watcher.forget(&other);
        for id in self.watcher.closed(&other.address) {
            self.line(Kind::Terminated, format_args!("terminated {id}"));
        }
        let peer = &mut self.peers[at];
        peer.detector = Detector::default();
        peer.refs = OutTable::default();
        peer.manifests = OutTable::default();
    }

    fn quarantined(&mut self, at: usize, other: &Unique) {
        let own = self.bytes.clone();
        self.on_control_to(at, other.uid, b'a', |out| {
            put_bytes(1, &own, out);
            put_bytes(2, &wire::unique_bytes(other), out);
        });
    }

    // ---- connections

    fn find_out(&self, dial: u64) -> Option<(usize, usize)> {
        let of = |peer: &Peer| peer.conns.iter().position(|conn| conn.is_some_and(|conn| conn.dial == dial));
        self.peers.iter().enumerate().find_map(|(at, peer)| Some((at, of(peer)?)))
    }

    fn ask(&mut self, at: usize, dial: u64) {
        let Node { peers, done, bytes, me, .. } = self;
        done.control(dial, me.uid, b'd', |out| {
            put_bytes(1, bytes, out);
            put_bytes(2, &peers[at].bytes, out);
            put_uint(15, dial, out);
        });
    }

    fn answer(&mut self, dial: u64, owed: (Option<u64>, Option<u64>)) {
        let Node { done, bytes, me, .. } = self;
        done.control(dial, me.uid, b'e', |out| {
            put_bytes(1, bytes, out);
            owed.0.inspect(|uid| put_uint(14, *uid, out));
            owed.1.inspect(|nonce| put_uint(15, *nonce, out));
        });
    }

    pub fn dialed(&mut self, dial: u64) {
        let found = self.find_out(dial);
        let Some((at, lane)) = found.filter(|(at, lane)| self.peers[*at].conns[*lane].is_some_and(|c| c.state == State::Dialing)) else {
            return self.done.effects.push(Effect::HangOut(dial));
        };
        let now = self.moment;
        self.peers[at].conns[lane] = Some(OutConn { dial, state: State::Asked { begun: now, last: now } });
        self.done.bytes.extend_from_slice(b"AKKA");
        self.done.bytes.push(lane as u8 + 1);
        self.done.end_write(dial);
        self.ask(at, dial);
        if lane != CONTROL {
            return;
        }
        let is_owed = |i: &Inbound| i.owed.is_some() && i.known.is_some_and(|(origin, _)| self.origins[origin].peer == at);
        let mut owed: Vec<u64> = self.inbound.iter().filter(|(_, i)| is_owed(i)).map(|(number, _)| *number).collect();
        owed.sort_unstable();
        for number in owed {
            if let Some(answer) = self.inbound.get_mut(&number).and_then(|i| i.owed.take()) {
                self.answer(dial, answer);
            }
        }
    }

    pub fn lost(&mut self, dial: u64) {
        if let Some((at, lane)) = self.find_out(dial) {
            self.peers[at].conns[lane] = None;
            self.peers[at].redial[lane] = self.moment + 1_000;
        }
    }

    pub fn accepted(&mut self, number: u64) {
        if self.inbound.len() >= 256 {
            self.refused("connections");
            self.done.effects.push(Effect::HangIn(number));
        } else {
            self.inbound.insert(number, Inbound::default());
        }
    }

    pub fn ended(&mut self, number: u64) {
        self.inbound.remove(&number);
    }

    // ---- frames

    pub fn comes(&mut self, number: u64, piece: &[u8]) {
        let Some(mut inbound) = self.inbound.remove(&number) else {
            return self.done.effects.push(Effect::HangIn(number));
        };
        let mut held = std::mem::take(&mut inbound.bytes);
        let rest = if held.is_empty() {
            self.frames(number, &mut inbound, piece)
        } else {
            held.extend_from_slice(piece);
            self.frames(number, &mut inbound, &held)
        };
        match rest {
            Ok(rest) if held.is_empty() => held.extend_from_slice(&piece[rest..]),
            Ok(rest) => {
                held.drain(..rest);
            }
            Err(fault) => {
                self.line(Kind::Other, format_args!("dropped {number} {fault}"));
                return self.done.effects.push(Effect::HangIn(number));
            }
        }
        inbound.bytes = held;
        self.inbound.insert(number, inbound);
    }

    /// All whole frames at the front are heard; how many bytes they are.
    fn frames(&mut self, number: u64, inbound: &mut Inbound, bytes: &[u8]) -> Result<usize, &'static str> {
        let mut at = 0;
        if inbound.stream == 0 {
            let Some(preamble) = bytes.get(..5) else { return Ok(0) };
            if !preamble.starts_with(b"AKKA") {
                return Err("bad-magic");
            }
            if !(1..=2).contains(&preamble[4]) {
                return Err("bad-stream");
            }
            inbound.stream = preamble[4];
            at = 5;
        }
        while let Some(len) = bytes.get(at..at + 4) {
            let len = u32::from_le_bytes(len.try_into().unwrap()) as usize;
            if len > 262_144 {
                return Err("too-long");
            }
            let Some(frame) = bytes.get(at + 4..at + 4 + len) else { break };
            self.hears(number, inbound, frame);
            at += 4 + len;
        }
        Ok(at)
    }

    fn drops(&mut self, number: u64, why: impl Display) {
        self.line(Kind::Other, format_args!("dropped {number} {why}"));
    }

    fn hears(&mut self, number: u64, inbound: &mut Inbound, frame: &[u8]) {
        let origins = std::mem::take(&mut self.origins);
        let said = said(inbound, &origins, frame);
        match said {
            Err(Fault::Word(why)) => self.drops(number, why),
            Err(Fault::Name(which, Unknown::Version(v))) => self.drops(number, format_args!("unknown-version {which} {v}")),
            Err(Fault::Name(which, Unknown::Index(v, i))) => self.drops(number, format_args!("unknown-index {which} {v} {i}")),
            Ok(Said::Ordinary { names, literal, serializer, payload, versions }) => {
                let (at, nonce) = inbound.known.expect("an ordinary message comes from a known origin");
                let peer = origins[at].peer;
                let v = &origins[at].unique;
                if self.peers[peer].closed.contains(&v.uid) {
                    self.tells_closed(number, peer, v, true);
                    self.origins = origins;
                    return;
                }
                self.got(&origins[at], nonce, names, serializer, payload);
                let shown = [0, 1].map(|kind| origins[at].tables[kind].number_of(versions[kind]));
                let names = [0, 1, 2].map(|k| if literal[k] { names[k].to_vec() } else { Vec::new() });
                self.origins = origins;
                self.counts(inbound, at, shown, names);
                return;
            }
            Ok(Said::Control(control)) => {
                self.origins = origins;
                return self.controlled(number, inbound, control);
            }
        }
        self.origins = origins;
    }

    fn tells_closed(&mut self, number: u64, peer: usize, v: &Unique, answers: bool) {
        self.drops(number, "closed");
        if answers {
            self.quarantined(peer, v);
        }
    }

    fn got(&mut self, origin: &Origin, nonce: Option<u64>, names: Names, serializer: i32, payload: &[u8]) {
        self.used(origin.peer);
        let text = &mut self.done.text;
        write!(text, "{} got {} ", self.text, origin.text).unwrap();
        match nonce {
            Some(nonce) => write!(text, "{nonce}").unwrap(),
            None => text.push(b'-'),
        }
        self.done.ordinary_line(Kind::Got, names, serializer, payload);
    }

    fn counts(&mut self, inbound: &mut Inbound, at: usize, shown: [Option<u64>; 2], names: [Vec<u8>; 3]) {
        for kind in 0..2 {
            inbound.shown[kind] = shown[kind].or(inbound.shown[kind]);
        }
        let [refs, manifests] = &mut self.origins[at].tables;
        refs.count(&names[0]);
        refs.count(&names[1]);
        manifests.count(&names[2]);
    }

    fn controlled(&mut self, number: u64, inbound: &mut Inbound, control: Control) {
        match control {
            Control::Request { from, to, nonce } => return self.requested(number, inbound, from, to, nonce),
            Control::Response { from, for_uid, nonce } => return self.answered(from, for_uid, nonce),
            _ => {}
        }
        let (at, _) = inbound.known.expect("other control messages come from a known origin");
        let peer = self.origins[at].peer;
        let uid = self.origins[at].unique.uid;
        if self.peers[peer].closed.contains(&uid) {
            let answers = !matches!(control, Control::Quarantined { .. } | Control::Heartbeat | Control::HeartbeatAnswer { .. });
            let v = self.origins[at].unique.clone();
            return self.tells_closed(number, peer, &v, answers);
        }
        if matches!(control, Control::Numbered { .. } | Control::Table { .. } | Control::Heartbeat) {
            self.used(peer);
        }
        match control {
            Control::Numbered { n, serializer, manifest, payload, .. } => self.numbered(at, n, serializer, manifest, payload),
            Control::Ack { nack, n, .. } => self.acknowledged(number, at, nack, n),
            Control::Table { refs, origin_uid, number: table, keys, values, .. } => {
                if origin_uid != self.me.uid {
                    return self.drops(number, "not-me");
                }
                self.adopts(number, at, refs, table, keys, values);
            }
            Control::TableAck { refs, number: table, .. } => {
                if !self.origins[at].tables[1 - refs as usize].confirm(table) {
                    self.drops(number, "old-table");
                }
            }
            Control::Quarantined { to, .. } if to != self.me => self.drops(number, "not-me"),
            Control::Quarantined { .. } => {
                let other = self.origins[at].text.clone();
                self.line(Kind::Other, format_args!("notice {other}"));
            }
            Control::Heartbeat => {
                let own = self.me.uid;
                self.on_control_to(peer, uid, b'n', |out| put_uint(1, own, out));
            }
            _ => {
                let now = self.moment;
                if self.peers[peer].current == Some(uid) && self.watcher.watches_at(&self.peers[peer].address) {
                    self.peers[peer].detector.heard(now);
                }
            }
        }
    }

    fn requested(&mut self, number: u64, inbound: &mut Inbound, v: Unique, to: Address, nonce: Option<u64>) {
        let place = self.origin_at.get(&v).copied();
        if to != self.me.address {
            return self.drops(number, "not-me");
        }
        if v.address == self.me.address {
            return self.drops(number, "self");
        }
        if inbound.known.is_some_and(|known| Some(known.0) != place || known.1 != nonce) {
            return self.drops(number, "origin");
        }
        if self.peers.len() >= 64 && !self.peer_at.contains_key(&v.address) {
            return self.drops(number, "peers");
        }
        if self.origins.len() >= 1_024 && place.is_none() {
            return self.drops(number, "origins");
        }
        let Some(peer) = self.make_peer(&v.address) else { return };
        self.used(peer);
        let owed = (nonce.map(|_| v.uid), nonce);
        let at = place.unwrap_or_else(|| {
            let tables = [InTables::default(), InTables::default()];
            self.origins.push(Origin { text: v.to_string(), unique: v.clone(), peer, taken: 0, tables, moment: self.moment, owes: false });
            self.origin_at.insert(v, self.origins.len() - 1);
            self.origins.len() - 1
        });
        inbound.known = Some((at, nonce));
        match self.peers[peer].conns[CONTROL] {
            Some(conn) if conn.state != State::Dialing => self.answer(conn.dial, owed),
            _ => inbound.owed = Some(owed),
        }
    }

    fn answered(&mut self, v: Unique, for_uid: Option<u64>, nonce: Option<u64>) {
        let peer = self.peer_at.get(&v.address).copied();
        let meant = for_uid.zip(nonce);
        let told = nonce.filter(|_| meant.is_some()).map_or("-".to_string(), |nonce| nonce.to_string());
        let mut done = false;
        for (at, lane) in peer.into_iter().flat_map(|at| [(at, CONTROL), (at, ORDINARY)]) {
            let Some(conn) = self.peers[at].conns[lane] else { continue };
            if meant.is_some_and(|(_, nonce)| nonce != conn.dial) {
                continue;
            }
            let is_for_me = meant.is_none_or(|(uid, _)| uid == self.me.uid);
            match conn.state {
                State::Asked { .. } if is_for_me => {
                    done = true;
                    self.peers[at].conns[lane] = Some(OutConn { dial: conn.dial, state: State::Bound(v.uid) });
                    self.binds(at, lane, &v, &told);
                }
                State::Bound(uid) if uid == v.uid && is_for_me => done = true,
                _ => {}
            }
            if meant.is_some() {
                break;
            }
        }
        if !done {
            self.line(Kind::Other, format_args!("stray {v} {told}"));
        }
    }

    fn binds(&mut self, at: usize, lane: usize, v: &Unique, told: &str) {
        if lane == CONTROL {
            return self.learns(at, v);
        }
        let peer = &mut self.peers[at];
        if peer.current != Some(v.uid) {
            self.line(Kind::Other, format_args!("stray {v} {told}"));
            return self.hang_out(at, ORDINARY, true);
        }
        let Some(conn) = peer.conns[ORDINARY] else { return };
        for message in std::mem::take(&mut peer.held) {
            self.tell_now(at, conn.dial, &message);
        }
    }

    fn learns(&mut self, at: usize, v: &Unique) {
        self.used(at);
        let now = self.moment;
        let peer = &self.peers[at];
        if peer.closed.contains(&v.uid) {
            return self.line(Kind::Other, format_args!("barred {v}"));
        }
        if peer.current != Some(v.uid) {
            if peer.closed.len() + peer.current.is_some() as usize >= 1_024 {
                self.refused("closed-uids");
                return self.hang_out(at, CONTROL, true);
            }
            self.close(at, "superseded");
            self.peers[at].current = Some(v.uid);
            self.peers[at].out.learnt = true;
            self.line(Kind::Other, format_args!("learnt {v}"));
            let given = self.peers[at].out.given();
            self.sent_lines(at, 1..=given);
            self.peers[at].patience = now;
        }
        self.peers[at].quiet = now;
        if let Some(origin) = self.origin_at.get(v).copied() {
            if std::mem::take(&mut self.origins[origin].owes) {
                self.acknowledges(origin, b'k');
            }
        }
        self.peers[at].out.rewind();
        self.pump(at);
        if self.peers[at].conns[ORDINARY].is_none() {
            self.dials(at, ORDINARY);
        }
    }

    fn acknowledges(&mut self, at: usize, letter: u8) -> bool {
        let Node { origins, peers, done, bytes, me, .. } = self;
        let origin = &origins[at];
        let Some(dial) = peers[origin.peer].bound(CONTROL, origin.unique.uid) else { return false };
        done.control(dial, me.uid, letter, |out| {
            put_uint(1, origin.taken, out);
            put_bytes(2, bytes, out);
        });
        true
    }

    fn numbered(&mut self, at: usize, n: u64, serializer: i32, manifest: &[u8], payload: &[u8]) {
        let origin = &mut self.origins[at];
        let (is_next, is_gap) = (n == origin.taken + 1, n > origin.taken + 1);
        if is_next {
            origin.taken = n;
            self.done.system_line(Kind::Took, (&self.text, "took", &origin.text), n, serializer, manifest, payload);
        } else {
            let word = if is_gap { "gap" } else { "again" };
            write!(self.done.text, "{} {word} {} {n}", self.text, origin.text).unwrap();
            self.done.end_line(Kind::Other);
        }
        if !self.acknowledges(at, if is_gap { b'l' } else { b'k' }) {
            self.origins[at].owes = true;
        }
        if is_next && serializer == 9_001 {
            if let Some((actor, watcher)) = wire::notice_in(payload) {
                self.noticed(at, manifest, actor, watcher);
            }
        }
    }

    fn noticed(&mut self, at: usize, manifest: &[u8], actor: &[u8], watcher: &[u8]) {
        let (peer, v) = (self.origins[at].peer, self.origins[at].unique.clone());
        let of_actor = text::reference(actor);
        let Some((address, path)) = of_actor else { return };
        let is_own = address == self.me.address;
        match manifest {
            b"W" if is_own && text::reference(watcher).is_some_and(|(from, _)| from == v.address) => {
                match self.watcher.remote_watch(path, watcher, &v) {
                    Added::NotThere => self.send_notice(peer, b'D', actor, watcher),
                    Added::Full => self.refused("remote-watches"),
                    Added::There | Added::Added => {}
                }
            }
            b"U" if is_own => self.watcher.remote_unwatch(path, watcher, &v),
            b"D" if address == v.address => {
                if let Some(id) = self.watcher.unwatch(watcher, actor) {
                    self.line(Kind::Terminated, format_args!("terminated {id}"));
                    self.last_watch(peer);
                }
            }
            _ => {}
        }
    }

    fn acknowledged(&mut self, number: u64, at: usize, nack: bool, n: u64) {
        let (now, uid) = (self.moment, self.origins[at].unique.uid);
        let at = self.origins[at].peer;
        let peer = &mut self.peers[at];
        if peer.current != Some(uid) {
            return self.drops(number, "not-current");
        }
        let Some(gone) = peer.out.acknowledge(n) else { return self.drops(number, "ack-range") };
        if nack {
            peer.out.rewind();
        }
        if gone > 0 {
            peer.patience = now;
        }
        if gone > 0 || nack {
            peer.quiet = now;
        }
        self.pump(at);
    }

    fn adopts(&mut self, number: u64, at: usize, refs: bool, table: u64, keys: Vec<&[u8]>, values: Vec<u16>) {
        let (at, uid) = (self.origins[at].peer, self.origins[at].unique.uid);
        let peer = &mut self.peers[at];
        if peer.current != Some(uid) {
            return self.drops(number, "not-current");
        }
        let order = if refs { &mut peer.refs } else { &mut peer.manifests }.adopt(table, keys, values);
        if order.is_lt() {
            return self.drops(number, "old-table");
        }
        if order.is_gt() {
            let (other, kind) = (format!("{}#{uid}", peer.text), if refs { "refs" } else { "manifests" });
            self.line(Kind::Other, format_args!("adopted {other} {kind} {table}"));
        }
        let own = self.bytes.clone();
        self.on_control_to(at, uid, if refs { b'g' } else { b'i' }, |out| {
            put_bytes(1, &own, out);
            put_uint(2, version_of(table) as u64, out);
            if table >= 128 {
                put_uint(3, table, out);
            }
        });
    }

    // ---- moments

    pub fn tick(&mut self, now: u64) {
        self.moment = now;
        for at in 0..self.peers.len() {
            self.tick_peer(at, now);
        }
        for at in 0..self.origins.len() {
            self.tick_origin(at, now);
        }
    }

    fn tick_conn(&mut self, at: usize, lane: usize, may_dial: bool, now: u64) {
        let peer = &mut self.peers[at];
        match &mut peer.conns[lane] {
            None if may_dial && now >= peer.redial[lane] => self.dials(at, lane),
            Some(OutConn { dial, state: State::Asked { begun, last } }) => {
                if now >= *begun + 20_000 {
                    self.hang_out(at, lane, true);
                } else if now >= *last + 1_000 {
                    *last = now;
                    let dial = *dial;
                    self.ask(at, dial);
                }
            }
            _ => {}
        }
    }

    fn tick_peer(&mut self, at: usize, now: u64) {
        self.tick_conn(at, CONTROL, !self.peers[at].asleep, now);
        self.tick_conn(at, ORDINARY, self.peers[at].bound_to_current(CONTROL).is_some(), now);
        let peer = &self.peers[at];
        if peer.current.is_some() && !peer.out.kept.is_empty() && now >= peer.patience + 21_600_000 {
            self.close(at, "undelivered");
        }
        let peer = &mut self.peers[at];
        if !peer.out.kept.is_empty() && peer.bound_to_current(CONTROL).is_some() && now >= peer.quiet + 1_000 {
            peer.out.rewind();
            self.pump(at);
            self.peers[at].quiet = now;
        }
        self.tick_watches(at, now);
        let peer = &self.peers[at];
        let is_idle = peer.out.kept.is_empty() && peer.held.is_empty() && now >= peer.used + 300_000;
        if is_idle && peer.bound_to_current(CONTROL).is_some() && !self.watcher.watches_at(&peer.address) {
            let other = format!("{}#{}", peer.text, peer.current.unwrap_or(0));
            self.line(Kind::Other, format_args!("idle {other}"));
            self.hang_out(at, ORDINARY, false);
            self.hang_out(at, CONTROL, false);
            self.peers[at].asleep = true;
        }
    }

    fn tick_watches(&mut self, at: usize, now: u64) {
        let peer = &mut self.peers[at];
        let Some(uid) = peer.current else { return };
        if !self.watcher.watches_at(&peer.address) {
            return;
        }
        if !peer.detector.ask(now) {
            self.close(at, "unreachable");
        } else if peer.detector.beaten.is_none_or(|last| now >= last + 1_000) && self.on_control_to(at, uid, b'm', |_| {}) {
            self.peers[at].detector.beaten = Some(now);
        }
    }

    /// Whether all ordinary connections of an origin have shown a table that is late enough.
    fn settled(&self, at: usize, kind: usize) -> bool {
        let least = self.origins[at].tables[kind].number().saturating_sub(2);
        let of_origin = |i: &&Inbound| i.stream == 2 && i.known.is_some_and(|(origin, _)| origin == at);
        self.inbound.values().filter(of_origin).all(|i| i.shown[kind].is_some_and(|shown| shown >= least))
    }

    fn tick_origin(&mut self, at: usize, now: u64) {
        let (peer, uid) = (self.origins[at].peer, self.origins[at].unique.uid);
        let Some(dial) = self.peers[peer].bound(CONTROL, uid) else { return };
        if self.peers[peer].closed.contains(&uid) || now < self.origins[at].moment + 60_000 {
            return;
        }
        for kind in 0..2 {
            let settled = self.settled(at, kind);
            match self.origins[at].tables[kind].advertise(settled) {
                Advertised::Nothing => continue,
                Advertised::Again => {}
                Advertised::New => {
                    let (number, names) = self.origins[at].tables[kind].announced();
                    let (count, word) = (names.len(), ["refs", "manifests"][kind]);
                    let other = self.origins[at].text.clone();
                    self.line(Kind::Other, format_args!("advertised {other} {word} {number} {count}"));
                }
            }
            let Node { origins, done, bytes, me, .. } = self;
            let (number, names) = origins[at].tables[kind].announced();
            done.control(dial, me.uid, [b'f', b'h'][kind], |out| {
                put_bytes(1, bytes, out);
                put_uint(2, uid, out);
                put_uint(3, version_of(number) as u64, out);
                names.iter().for_each(|name| put_bytes(4, name, out));
                (0..names.len() as u64).for_each(|index| put_uint(5, index, out));
                if number >= 128 {
                    put_uint(6, number, out);
                }
            });
        }
        self.origins[at].moment = now;
    }
}
