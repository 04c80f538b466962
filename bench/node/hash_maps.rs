//! The same two nodes as `rattle_main.txt` in plain Rust, with HashMaps: as much of a node as these messages need, with the same checks, the
//! same bytes and the same lines. It gives the same counts.
#[path = "../fields.rs"]
mod fields;

use fields::{Fields, Value};
use std::collections::{HashMap, HashSet, VecDeque};
use std::time::Instant;

const MESSAGES: u64 = 1_000_000;
const RECIPIENTS: u64 = 256;

#[derive(Clone, PartialEq, Eq, Hash)]
struct Address {
    protocol: String,
    system: String,
    host: String,
    port: u16,
}

#[derive(Clone, PartialEq, Eq, Hash)]
struct UniqueAddress {
    address: Address,
    uid: u64,
}

#[derive(Clone)]
struct SysMsg {
    serializer: i32,
    manifest: Vec<u8>,
    payload: Vec<u8>,
}

#[derive(Clone)]
struct Tell {
    sender: String,
    recipient: String,
    serializer: i32,
    manifest: String,
    payload: Vec<u8>,
}

#[allow(dead_code)]
enum Line {
    Started { of: UniqueAddress },
    Learnt { of: UniqueAddress, other: UniqueAddress },
    Sent { of: UniqueAddress, other: UniqueAddress, n: u64, message: SysMsg },
    Took { of: UniqueAddress, other: UniqueAddress, n: u64, message: SysMsg },
    Again { of: UniqueAddress, other: UniqueAddress, n: u64 },
    Gap { of: UniqueAddress, other: UniqueAddress, n: u64 },
    Told { of: UniqueAddress, other: UniqueAddress, dial: u64, message: Tell },
    Got { of: UniqueAddress, other: UniqueAddress, nonce: Option<u64>, message: Tell },
    Advertised { of: UniqueAddress, other: UniqueAddress, refs: bool, number: u64, count: usize },
    Adopted { of: UniqueAddress, other: UniqueAddress, refs: bool, number: u64 },
    Dropped { of: UniqueAddress, conn: u64, rule: &'static str },
}

#[allow(dead_code)]
enum Effect {
    Dial { dial: u64, address: Address },
    Write { dial: u64, bytes: Vec<u8> },
    Line(Line),
}

enum Control {
    Request { from: UniqueAddress, to: Address, nonce: Option<u64> },
    Response { from: UniqueAddress, for_uid: Option<u64>, nonce: Option<u64> },
    Table { refs: bool, from: UniqueAddress, origin_uid: u64, version: u64, keys: Vec<String>, values: Vec<u16> },
    TableAck { refs: bool, from: UniqueAddress, version: u64 },
    Numbered { n: u64, message: SysMsg, reply_to: UniqueAddress },
    Ack { n: u64, from: UniqueAddress },
    Nack { n: u64, from: UniqueAddress },
}

// ---- bytes

fn put_varint(mut n: u64, out: &mut Vec<u8>) {
    while n >= 128 {
        out.push(n as u8 | 128);
        n >>= 7;
    }
    out.push(n as u8);
}

fn put_uint(field: u64, n: u64, out: &mut Vec<u8>) {
    put_varint(field << 3, out);
    put_varint(n, out);
}

fn put_bytes(field: u64, bytes: &[u8], out: &mut Vec<u8>) {
    put_varint(field << 3 | 2, out);
    put_varint(bytes.len() as u64, out);
    out.extend_from_slice(bytes);
}

fn put_address(address: &Address, out: &mut Vec<u8>) {
    put_bytes(1, address.protocol.as_bytes(), out);
    put_bytes(2, address.system.as_bytes(), out);
    put_bytes(3, address.host.as_bytes(), out);
    put_uint(4, address.port as u64, out);
}

fn put_unique(field: u64, who: &UniqueAddress, out: &mut Vec<u8>) {
    let mut address = Vec::new();
    put_address(&who.address, &mut address);
    let mut unique = Vec::new();
    put_bytes(1, &address, &mut unique);
    put_uint(2, who.uid, &mut unique);
    put_bytes(field, &unique, out);
}

fn payload_of(control: &Control, out: &mut Vec<u8>) -> u8 {
    match control {
        Control::Request { from, to, nonce } => {
            put_unique(1, from, out);
            let mut address = Vec::new();
            put_address(to, &mut address);
            put_bytes(2, &address, out);
            if let Some(nonce) = nonce {
                put_uint(15, *nonce, out);
            }
            b'd'
        }
        Control::Response { from, for_uid, nonce } => {
            put_unique(1, from, out);
            if let Some(uid) = for_uid {
                put_uint(14, *uid, out);
            }
            if let Some(nonce) = nonce {
                put_uint(15, *nonce, out);
            }
            b'e'
        }
        Control::Table { refs, from, origin_uid, version, keys, values } => {
            put_unique(1, from, out);
            put_uint(2, *origin_uid, out);
            put_uint(3, *version, out);
            for key in keys {
                put_bytes(4, key.as_bytes(), out);
            }
            for value in values {
                put_uint(5, *value as u64, out);
            }
            if *refs { b'f' } else { b'h' }
        }
        Control::TableAck { refs, from, version } => {
            put_unique(1, from, out);
            put_uint(2, *version, out);
            if *refs { b'g' } else { b'i' }
        }
        Control::Numbered { n, message, reply_to } => {
            put_bytes(1, &message.payload, out);
            put_uint(2, message.serializer as i64 as u64, out);
            if !message.manifest.is_empty() {
                put_bytes(3, &message.manifest, out);
            }
            put_uint(4, *n, out);
            put_unique(5, reply_to, out);
            b'j'
        }
        Control::Ack { n, from } => {
            put_uint(1, *n, out);
            put_unique(2, from, out);
            b'k'
        }
        Control::Nack { n, from } => {
            put_uint(1, *n, out);
            put_unique(2, from, out);
            b'l'
        }
    }
}

fn begin_frame(uid: u64, refs: u8, manifests: u8, serializer: i32, out: &mut Vec<u8>) {
    out.extend_from_slice(&[0; 4]);
    out.extend_from_slice(&[0, 0, refs, manifests]);
    out.extend_from_slice(&uid.to_le_bytes());
    out.extend_from_slice(&serializer.to_le_bytes());
    out.extend_from_slice(&[0; 12]);
}

fn put_name(place: usize, name: &str, index: Option<u16>, out: &mut Vec<u8>) {
    let tag = match index {
        Some(index) => 0xff00_0000 + index as u32,
        None => {
            let at = out.len() as u32 - 4;
            out.extend_from_slice(&(name.len() as u16).to_le_bytes());
            out.extend_from_slice(name.as_bytes());
            at
        }
    };
    out[20 + 4 * place..24 + 4 * place].copy_from_slice(&tag.to_le_bytes());
}

fn end_frame(out: &mut [u8]) {
    let len = out.len() as u32 - 4;
    out[..4].copy_from_slice(&len.to_le_bytes());
}

fn control_frame(control: &Control, uid: u64) -> Vec<u8> {
    let mut payload = Vec::new();
    let letter = payload_of(control, &mut payload);
    let mut out = Vec::new();
    begin_frame(uid, 0, 0, 17, &mut out);
    put_name(0, "", None, &mut out);
    put_name(1, "", None, &mut out);
    let manifest = [letter];
    put_name(2, std::str::from_utf8(&manifest).unwrap(), None, &mut out);
    out.extend_from_slice(&payload);
    end_frame(&mut out);
    out
}

// ---- reading

fn string(bytes: &[u8]) -> Option<String> {
    if bytes.is_ascii() { String::from_utf8(bytes.to_vec()).ok() } else { None }
}

fn address_in(bytes: &[u8]) -> Option<Address> {
    let (mut protocol, mut system, mut host, mut port) = (None, None, None, None);
    for (field, value) in (Fields { rest: bytes }) {
        match (field, value) {
            (1, Value::Bytes(b)) => protocol = string(b),
            (2, Value::Bytes(b)) => system = string(b),
            (3, Value::Bytes(b)) => host = string(b),
            (4, Value::Number(n)) => port = u16::try_from(n).ok(),
            _ => {}
        }
    }
    Some(Address { protocol: protocol?, system: system?, host: host?, port: port? })
}

fn unique_in(bytes: &[u8]) -> Option<UniqueAddress> {
    let (mut address, mut uid) = (None, None);
    for (field, value) in (Fields { rest: bytes }) {
        match (field, value) {
            (1, Value::Bytes(b)) => address = address_in(b),
            (2, Value::Number(n)) => uid = Some(n),
            _ => {}
        }
    }
    Some(UniqueAddress { address: address?, uid: uid? })
}

fn control_in(letter: u8, payload: &[u8]) -> Option<Control> {
    let mut numbers = [None; 16];
    let mut bytes = [None; 16];
    let (mut keys, mut values) = (Vec::new(), Vec::new());
    let is_table = letter == b'f' || letter == b'h';
    for (field, value) in (Fields { rest: payload }) {
        match value {
            Value::Number(n) if is_table && field == 5 => values.push(u16::try_from(n).ok()?),
            Value::Bytes(b) if is_table && field == 4 => keys.push(string(b)?),
            Value::Number(n) if field < 16 => numbers[field as usize] = Some(n),
            Value::Bytes(b) if field < 16 => bytes[field as usize] = Some(b),
            _ => {}
        }
    }
    Some(match letter {
        b'd' => Control::Request { from: unique_in(bytes[1]?)?, to: address_in(bytes[2]?)?, nonce: numbers[15] },
        b'e' => Control::Response { from: unique_in(bytes[1]?)?, for_uid: numbers[14], nonce: numbers[15] },
        b'f' | b'h' => Control::Table {
            refs: letter == b'f',
            from: unique_in(bytes[1]?)?,
            origin_uid: numbers[2]?,
            version: numbers[3]?,
            keys,
            values,
        },
        b'g' | b'i' => Control::TableAck { refs: letter == b'g', from: unique_in(bytes[1]?)?, version: numbers[2]? },
        b'j' => Control::Numbered {
            n: numbers[4]?,
            message: SysMsg {
                serializer: numbers[2]? as i32,
                manifest: bytes[3].unwrap_or(&[]).to_vec(),
                payload: bytes[1]?.to_vec(),
            },
            reply_to: unique_in(bytes[5]?)?,
        },
        b'k' => Control::Ack { n: numbers[1]?, from: unique_in(bytes[2]?)? },
        b'l' => Control::Nack { n: numbers[1]?, from: unique_in(bytes[2]?)? },
        _ => return None,
    })
}

fn said_by(control: &Control) -> &UniqueAddress {
    match control {
        Control::Request { from, .. }
        | Control::Response { from, .. }
        | Control::Table { from, .. }
        | Control::TableAck { from, .. }
        | Control::Ack { from, .. }
        | Control::Nack { from, .. } => from,
        Control::Numbered { reply_to, .. } => reply_to,
    }
}

// ---- a node

#[derive(Clone, Copy, PartialEq)]
enum State {
    Dialing,
    Asked,
    Bound(u64),
}

#[derive(Default)]
struct OutTable {
    version: u8,
    indices: HashMap<String, u16>,
}

#[derive(Default)]
struct InTables {
    counts: HashMap<String, (u64, u64)>,
    announced: Option<Vec<String>>,
    current: Vec<String>,
    number: u64,
}

struct Peer {
    current: Option<u64>,
    closed: HashSet<u64>,
    kept: VecDeque<SysMsg>,
    acknowledged: u64,
    written: u64,
    held: Vec<Tell>,
    refs: OutTable,
    manifests: OutTable,
    control: Option<(u64, State)>,
    ordinary: Option<(u64, State)>,
    quiet: u64,
    patience: u64,
    used: u64,
}

#[derive(Default)]
struct Inbound {
    bytes: Vec<u8>,
    at: usize,
    ordinary: Option<bool>,
    known: Option<(UniqueAddress, Option<u64>)>,
    owed: Option<(Option<u64>, Option<u64>)>,
}

#[derive(Default)]
struct Origin {
    refs: InTables,
    manifests: InTables,
    advertised: u64,
    taken: u64,
    owes: bool,
}

struct Node {
    me: UniqueAddress,
    moment: u64,
    dials: u64,
    peers: HashMap<Address, Peer>,
    dialed: HashMap<u64, (Address, bool)>,
    inbound: HashMap<u64, Inbound>,
    origins: HashMap<UniqueAddress, Origin>,
    effects: Vec<Effect>,
    lines: u64,
}

enum Said {
    Control(Control),
    Ordinary(Tell, [Option<String>; 3]),
}

impl Node {
    fn start(system: &str, host: &str, uid: u64) -> Node {
        let me = UniqueAddress { address: address(system, host), uid };
        let started = Line::Started { of: me.clone() };
        Node {
            me,
            moment: 0,
            dials: 0,
            peers: HashMap::new(),
            dialed: HashMap::new(),
            inbound: HashMap::new(),
            origins: HashMap::new(),
            effects: vec![Effect::Line(started)],
            lines: 0,
        }
    }

    fn tell_line(&mut self, line: Line) {
        self.effects.push(Effect::Line(line));
    }

    fn drops(&mut self, conn: u64, rule: &'static str) {
        let of = self.me.clone();
        self.tell_line(Line::Dropped { of, conn, rule });
    }

    fn write(&mut self, dial: u64, control: &Control) {
        let bytes = control_frame(control, self.me.uid);
        self.effects.push(Effect::Write { dial, bytes });
    }

    fn dials(&mut self, address: &Address, ordinary: bool) {
        self.dials += 1;
        let dial = self.dials;
        let peer = self.peers.get_mut(address).unwrap();
        let conn = Some((dial, State::Dialing));
        if ordinary {
            peer.ordinary = conn;
        } else {
            peer.control = conn;
        }
        self.dialed.insert(dial, (address.clone(), ordinary));
        self.effects.push(Effect::Dial { dial, address: address.clone() });
    }

    fn makes_missing(&mut self, address: &Address) {
        if self.peers.contains_key(address) {
            return;
        }
        let peer = Peer {
            current: None,
            closed: HashSet::new(),
            kept: VecDeque::new(),
            acknowledged: 0,
            written: 0,
            held: Vec::new(),
            refs: OutTable::default(),
            manifests: OutTable::default(),
            control: None,
            ordinary: None,
            quiet: 0,
            patience: 0,
            used: 0,
        };
        self.peers.insert(address.clone(), peer);
        self.dials(address, false);
    }

    fn uses(&mut self, address: &Address) {
        if let Some(peer) = self.peers.get_mut(address) {
            peer.used = self.moment;
        }
    }

    /// The dial number of the control connection to an incarnation, where it is bound to it.
    fn control_to(&self, v: &UniqueAddress) -> Option<u64> {
        match self.peers.get(&v.address)?.control {
            Some((dial, State::Bound(uid))) if uid == v.uid => Some(dial),
            _ => None,
        }
    }

    fn pair(&mut self, address: Address) {
        self.makes_missing(&address);
        self.uses(&address);
    }

    fn pumps(&mut self, address: &Address) {
        let Some(peer) = self.peers.get_mut(address) else { return };
        let Some(uid) = peer.current else { return };
        let bound = match peer.control {
            Some((dial, State::Bound(bound))) if bound == uid => Some(dial),
            _ => None,
        };
        let mut frames = Vec::new();
        while peer.written < peer.acknowledged + peer.kept.len() as u64 && peer.written < peer.acknowledged + 1_000 {
            peer.written += 1;
            let message = peer.kept[(peer.written - peer.acknowledged - 1) as usize].clone();
            if bound.is_some() {
                frames.push(Control::Numbered { n: peer.written, message, reply_to: self.me.clone() });
            }
        }
        if let Some(dial) = bound {
            for control in frames {
                self.write(dial, &control);
            }
        }
    }

    fn send(&mut self, address: Address, message: SysMsg) {
        self.pair(address.clone());
        let peer = self.peers.get_mut(&address).unwrap();
        if peer.kept.len() >= 20_000 {
            return;
        }
        if peer.kept.is_empty() {
            peer.quiet = self.moment;
            peer.patience = self.moment;
        }
        let copy = message.clone();
        peer.kept.push_back(message);
        let Some(uid) = peer.current else { return };
        let n = peer.acknowledged + peer.kept.len() as u64;
        let of = self.me.clone();
        let other = UniqueAddress { address: address.clone(), uid };
        self.tell_line(Line::Sent { of, other, n, message: copy });
        self.pumps(&address);
    }

    fn tell(&mut self, address: Address, message: Tell) {
        self.pair(address.clone());
        let peer = self.peers.get_mut(&address).unwrap();
        match (peer.current, peer.ordinary) {
            (Some(uid), Some((dial, State::Bound(bound)))) if bound == uid => self.tells_on(address, uid, dial, message),
            _ => {
                if peer.held.len() < 3_072 {
                    peer.held.push(message);
                }
            }
        }
    }

    fn tells_on(&mut self, address: Address, uid: u64, dial: u64, message: Tell) {
        let peer = &self.peers[&address];
        let mut bytes = Vec::new();
        begin_frame(self.me.uid, peer.refs.version, peer.manifests.version, message.serializer, &mut bytes);
        put_name(0, &message.sender, peer.refs.indices.get(&message.sender).copied(), &mut bytes);
        put_name(1, &message.recipient, peer.refs.indices.get(&message.recipient).copied(), &mut bytes);
        put_name(2, &message.manifest, peer.manifests.indices.get(&message.manifest).copied(), &mut bytes);
        bytes.extend_from_slice(&message.payload);
        end_frame(&mut bytes);
        let of = self.me.clone();
        let other = UniqueAddress { address, uid };
        self.tell_line(Line::Told { of, other, dial, message });
        self.effects.push(Effect::Write { dial, bytes });
    }

    fn accepted(&mut self, conn: u64) {
        self.inbound.insert(conn, Inbound::default());
    }

    fn is_up(&mut self, dial: u64) {
        let Some((address, ordinary)) = self.dialed.get(&dial).cloned() else { return };
        let peer = self.peers.get_mut(&address).unwrap();
        let conn = Some((dial, State::Asked));
        if ordinary {
            peer.ordinary = conn;
        } else {
            peer.control = conn;
        }
        let stream = if ordinary { 2 } else { 1 };
        self.effects.push(Effect::Write { dial, bytes: vec![b'A', b'K', b'K', b'A', stream] });
        let request = Control::Request { from: self.me.clone(), to: address.clone(), nonce: Some(dial) };
        self.write(dial, &request);
        if ordinary {
            return;
        }
        let mut owed = Vec::new();
        for inbound in self.inbound.values_mut() {
            if inbound.known.as_ref().is_some_and(|(who, _)| who.address == address) {
                owed.extend(inbound.owed.take());
            }
        }
        for (for_uid, nonce) in owed {
            let answer = Control::Response { from: self.me.clone(), for_uid, nonce };
            self.write(dial, &answer);
        }
    }

    fn comes(&mut self, conn: u64, piece: &[u8]) {
        let Some(mut inbound) = self.inbound.remove(&conn) else { return };
        inbound.bytes.extend_from_slice(piece);
        if inbound.ordinary.is_none() && inbound.bytes.len() >= 5 {
            inbound.ordinary = Some(inbound.bytes[4] == 2);
            inbound.at = 5;
        }
        while inbound.ordinary.is_some() && inbound.bytes.len() - inbound.at >= 4 {
            let at = inbound.at;
            let len = u32::from_le_bytes(inbound.bytes[at..at + 4].try_into().unwrap()) as usize;
            if inbound.bytes.len() - at - 4 < len {
                break;
            }
            inbound.at = at + 4 + len;
            let bytes = std::mem::take(&mut inbound.bytes);
            self.hears(conn, &mut inbound, &bytes[at + 4..at + 4 + len]);
            inbound.bytes = bytes;
        }
        if inbound.at == inbound.bytes.len() {
            inbound.bytes.clear();
            inbound.at = 0;
        }
        self.inbound.insert(conn, inbound);
    }

    fn said(&self, inbound: &Inbound, frame: &[u8]) -> Result<(u64, Said), &'static str> {
        if frame.len() < 28 || frame[0] != 0 || frame[1] & 1 != 0 {
            return Err("header");
        }
        let uid = u64::from_le_bytes(frame[4..12].try_into().unwrap());
        let serializer = i32::from_le_bytes(frame[12..16].try_into().unwrap());
        if inbound.known.as_ref().is_some_and(|(who, _)| who.uid != uid) {
            return Err("uid");
        }
        let origin = inbound.known.as_ref().and_then(|(who, _)| self.origins.get(who));
        let mut at = 28;
        let mut names: [(&str, bool); 3] = [("", true); 3];
        for (k, name) in names.iter_mut().enumerate() {
            let tag = u32::from_le_bytes(frame[16 + 4 * k..20 + 4 * k].try_into().unwrap());
            if tag & 0xff00_0000 != 0 {
                let tables = origin.map(|o| if k < 2 { &o.refs } else { &o.manifests }).ok_or("unknown")?;
                *name = (tables.current.get((tag & 0xffff) as usize).ok_or("unknown")?, false);
                continue;
            }
            let len = u16::from_le_bytes(frame.get(at..at + 2).ok_or("literal")?.try_into().unwrap()) as usize;
            let bytes = frame.get(at + 2..at + 2 + len).ok_or("literal")?;
            if !bytes.is_ascii() {
                return Err("not-ascii");
            }
            *name = (std::str::from_utf8(bytes).unwrap(), true);
            at += 2 + len;
        }
        let payload = &frame[at..];
        if (serializer == 17) == inbound.ordinary.unwrap_or(false) && names[2].0 != "d" {
            return Err("stream");
        }
        if serializer == 17 {
            let letter = *names[2].0.as_bytes().first().ok_or("control")?;
            let control = control_in(letter, payload).ok_or("control")?;
            let from = said_by(&control);
            if from.uid != uid || inbound.known.as_ref().is_some_and(|(who, _)| who != from) {
                return Err("from");
            }
            if inbound.known.is_none() && !matches!(control, Control::Request { .. } | Control::Response { .. }) {
                return Err("no-handshake");
            }
            return Ok((uid, Said::Control(control)));
        }
        if inbound.known.is_none() {
            return Err("no-handshake");
        }
        let message = Tell {
            sender: names[0].0.to_string(),
            recipient: names[1].0.to_string(),
            serializer,
            manifest: names[2].0.to_string(),
            payload: payload.to_vec(),
        };
        let counted = names.map(|(name, literal)| (literal && !name.is_empty()).then(|| name.to_string()));
        Ok((uid, Said::Ordinary(message, counted)))
    }

    fn hears(&mut self, conn: u64, inbound: &mut Inbound, frame: &[u8]) {
        match self.said(inbound, frame) {
            Err(rule) => self.drops(conn, rule),
            Ok((_, Said::Control(Control::Request { from, to, nonce }))) => self.requested(conn, inbound, from, to, nonce),
            Ok((_, Said::Control(Control::Response { from, for_uid, nonce }))) => self.answered(from, for_uid, nonce),
            Ok((_, said)) => {
                let Some((v, nonce)) = inbound.known.clone() else { return };
                if self.peers.get(&v.address).is_some_and(|p| p.closed.contains(&v.uid)) {
                    return self.drops(conn, "closed");
                }
                match said {
                    Said::Control(control) => self.controlled(conn, &v, control),
                    Said::Ordinary(message, counted) => self.got(&v, nonce, message, counted),
                }
            }
        }
    }

    fn requested(&mut self, conn: u64, inbound: &mut Inbound, v: UniqueAddress, to: Address, nonce: Option<u64>) {
        if to != self.me.address || v.address == self.me.address {
            return self.drops(conn, "not-me");
        }
        self.pair(v.address.clone());
        inbound.known = Some((v.clone(), nonce));
        self.origins.entry(v.clone()).or_default();
        let answer = (nonce.map(|_| v.uid), nonce);
        match self.peers[&v.address].control {
            Some((dial, State::Asked | State::Bound(_))) => {
                let answer = Control::Response { from: self.me.clone(), for_uid: answer.0, nonce: answer.1 };
                self.write(dial, &answer);
            }
            _ => inbound.owed = Some(answer),
        }
    }

    fn answered(&mut self, v: UniqueAddress, for_uid: Option<u64>, nonce: Option<u64>) {
        if for_uid != Some(self.me.uid) {
            return;
        }
        let Some((address, ordinary)) = nonce.and_then(|dial| self.dialed.get(&dial)).cloned() else { return };
        if address != v.address {
            return;
        }
        let peer = self.peers.get_mut(&address).unwrap();
        let conn = if ordinary { &mut peer.ordinary } else { &mut peer.control };
        match conn {
            Some((_, state)) if *state == State::Asked => *state = State::Bound(v.uid),
            _ => return,
        }
        if ordinary {
            let dial = nonce.unwrap_or(0);
            for message in std::mem::take(&mut peer.held) {
                self.tells_on(address.clone(), v.uid, dial, message);
            }
            return;
        }
        self.uses(&address);
        let peer = self.peers.get_mut(&address).unwrap();
        peer.current = Some(v.uid);
        peer.patience = self.moment;
        peer.quiet = self.moment;
        let of = self.me.clone();
        self.tell_line(Line::Learnt { of, other: v });
        self.pumps(&address);
        self.dials(&address, true);
    }

    fn is_current(&self, v: &UniqueAddress) -> bool {
        self.peers.get(&v.address).is_some_and(|p| p.current == Some(v.uid))
    }

    fn acknowledges(&mut self, v: &UniqueAddress, nack: bool) {
        let dial = self.control_to(v);
        let origin = self.origins.get_mut(v).unwrap();
        origin.owes = dial.is_none();
        let n = origin.taken;
        if let Some(dial) = dial {
            let from = self.me.clone();
            let control = if nack { Control::Nack { n, from } } else { Control::Ack { n, from } };
            self.write(dial, &control);
        }
    }

    fn controlled(&mut self, conn: u64, v: &UniqueAddress, control: Control) {
        match control {
            Control::Numbered { n, message, .. } => {
                self.uses(&v.address);
                let (of, other) = (self.me.clone(), v.clone());
                let origin = self.origins.get_mut(v).unwrap();
                if n == origin.taken + 1 {
                    origin.taken = n;
                    self.tell_line(Line::Took { of, other, n, message });
                    self.acknowledges(v, false);
                } else if n <= origin.taken {
                    self.tell_line(Line::Again { of, other, n });
                    self.acknowledges(v, false);
                } else {
                    self.tell_line(Line::Gap { of, other, n });
                    self.acknowledges(v, true);
                }
            }
            Control::Ack { n, .. } => {
                if !self.is_current(v) {
                    return self.drops(conn, "not-current");
                }
                let now = self.moment;
                let peer = self.peers.get_mut(&v.address).unwrap();
                if n > peer.acknowledged + peer.kept.len() as u64 {
                    return self.drops(conn, "ack-range");
                }
                let gone = n.saturating_sub(peer.acknowledged);
                peer.kept.drain(..gone as usize);
                peer.acknowledged += gone;
                peer.written = peer.written.max(peer.acknowledged);
                if gone > 0 {
                    peer.patience = now;
                    peer.quiet = now;
                }
                self.pumps(&v.address);
            }
            Control::Nack { .. } => {}
            Control::Table { refs, origin_uid, version, keys, values, .. } => {
                self.uses(&v.address);
                if origin_uid != self.me.uid || !self.is_current(v) {
                    return self.drops(conn, "not-me");
                }
                let peer = self.peers.get_mut(&v.address).unwrap();
                let table = if refs { &mut peer.refs } else { &mut peer.manifests };
                table.version = version as u8;
                table.indices = keys.into_iter().zip(values).collect();
                let (of, other) = (self.me.clone(), v.clone());
                self.tell_line(Line::Adopted { of, other, refs, number: version });
                if let Some(dial) = self.control_to(v) {
                    let ack = Control::TableAck { refs, from: self.me.clone(), version };
                    self.write(dial, &ack);
                }
            }
            Control::TableAck { refs, version, .. } => {
                let origin = self.origins.get_mut(v).unwrap();
                let tables = if refs { &mut origin.refs } else { &mut origin.manifests };
                if version == tables.number + 1 {
                    if let Some(names) = tables.announced.take() {
                        tables.current = names;
                        tables.number = version;
                    }
                }
            }
            Control::Request { .. } | Control::Response { .. } => {}
        }
    }

    fn got(&mut self, v: &UniqueAddress, nonce: Option<u64>, message: Tell, counted: [Option<String>; 3]) {
        self.uses(&v.address);
        let (of, other) = (self.me.clone(), v.clone());
        self.tell_line(Line::Got { of, other, nonce, message });
        let origin = self.origins.get_mut(v).unwrap();
        for (k, name) in counted.into_iter().enumerate() {
            let Some(name) = name else { continue };
            let tables = if k < 2 { &mut origin.refs } else { &mut origin.manifests };
            let first = tables.counts.len() as u64;
            if name.len() <= 256 && (first < 1_024 || tables.counts.contains_key(&name)) {
                tables.counts.entry(name).or_insert((0, first)).0 += 1;
            }
        }
    }

    fn tick(&mut self, now: u64) {
        self.moment = now;
        let origins: Vec<UniqueAddress> = self.origins.keys().cloned().collect();
        for v in origins {
            let Some(dial) = self.control_to(&v) else { continue };
            if self.origins[&v].advertised + 60_000 > now {
                continue;
            }
            for refs in [true, false] {
                let origin = self.origins.get_mut(&v).unwrap();
                let tables = if refs { &mut origin.refs } else { &mut origin.manifests };
                let mut ranked: Vec<(&String, &(u64, u64))> = tables.counts.iter().collect();
                ranked.sort_by_key(|(_, (count, first))| (u64::MAX - count, *first));
                let names: Vec<String> = ranked.iter().take(256).map(|(name, _)| (*name).clone()).collect();
                if names == tables.current {
                    continue;
                }
                let version = tables.number + 1;
                tables.announced = Some(names.clone());
                let (of, other) = (self.me.clone(), v.clone());
                self.tell_line(Line::Advertised { of, other, refs, number: version, count: names.len() });
                let values = (0..names.len() as u16).collect();
                let table = Control::Table { refs, from: self.me.clone(), origin_uid: v.uid, version, keys: names, values };
                self.write(dial, &table);
            }
            self.origins.get_mut(&v).unwrap().advertised = now;
        }
    }
}

// ---- two nodes

fn address(system: &str, host: &str) -> Address {
    Address { protocol: "akka".to_string(), system: system.to_string(), host: host.to_string(), port: 25_520 }
}

fn hand_over(from: &mut Node, to: &mut Node) {
    for effect in std::mem::take(&mut from.effects) {
        match effect {
            Effect::Dial { dial, .. } => {
                to.accepted(dial);
                from.is_up(dial);
            }
            Effect::Write { dial, bytes } => to.comes(dial, &bytes),
            Effect::Line(_) => from.lines += 1,
        }
    }
}

fn settle(a: &mut Node, b: &mut Node) {
    for _ in 0..64 {
        if a.effects.is_empty() && b.effects.is_empty() {
            return;
        }
        hand_over(a, b);
        hand_over(b, a);
    }
}

fn tell(a: &mut Node, b: &mut Node, count: u64) {
    for number in 0..count {
        let message = Tell {
            sender: String::new(),
            recipient: format!("akka://B@b.example.org:25520/user/actor-{}", number % RECIPIENTS),
            serializer: 4,
            manifest: "com.example.Event".to_string(),
            payload: b"0123456789abcdef0123456789abcdef".to_vec(),
        };
        a.tell(address("B", "b.example.org"), message);
        settle(a, b);
    }
}

fn main() {
    let mut a = Node::start("A", "a.example.org", 1);
    let mut b = Node::start("B", "b.example.org", 2);
    a.pair(address("B", "b.example.org"));
    settle(&mut a, &mut b);
    let start = Instant::now();
    for _ in 0..MESSAGES {
        let message = SysMsg { serializer: 5, manifest: b"x".to_vec(), payload: b"0123456789abcdef".to_vec() };
        a.send(address("B", "b.example.org"), message);
        settle(&mut a, &mut b);
    }
    println!("send {} {}", a.lines + b.lines, start.elapsed().as_micros());
    tell(&mut a, &mut b, RECIPIENTS);
    b.tick(60_000);
    settle(&mut a, &mut b);
    let start = Instant::now();
    println!("fill {} {}", a.lines + b.lines, start.elapsed().as_micros());
    tell(&mut a, &mut b, MESSAGES);
    println!("tell {} {}", a.lines + b.lines, start.elapsed().as_micros());
}
