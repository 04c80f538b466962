//! Frames, envelopes and control messages as bytes. All bytes come from nodes of this program: what none of them writes is
//! read as nothing, with no word on why.
use crate::fields::{Fields, Value};
use crate::text::{is_part, string, Address, Unique};

pub enum Control<'a> {
    Quarantined { from: Unique, to: Unique },
    Request { from: Unique, to: Address, nonce: Option<u64> },
    Response { from: Unique, for_uid: Option<u64>, nonce: Option<u64> },
    Table { refs: bool, from: Unique, origin_uid: u64, number: u64, keys: Vec<&'a [u8]>, values: Vec<u16> },
    TableAck { refs: bool, from: Unique, number: u64 },
    Numbered { n: u64, serializer: i32, manifest: &'a [u8], payload: &'a [u8], reply_to: Unique },
    Ack { nack: bool, n: u64, from: Unique },
    Heartbeat,
    HeartbeatAnswer { uid: u64 },
}

pub fn said_by<'a>(control: &'a Control) -> Option<&'a Unique> {
    match control {
        Control::Quarantined { from, .. }
        | Control::Request { from, .. }
        | Control::Response { from, .. }
        | Control::Table { from, .. }
        | Control::TableAck { from, .. }
        | Control::Ack { from, .. } => Some(from),
        Control::Numbered { reply_to, .. } => Some(reply_to),
        Control::Heartbeat | Control::HeartbeatAnswer { .. } => None,
    }
}

// ---- writing

fn put_varint(mut n: u64, out: &mut Vec<u8>) {
    while n >= 128 {
        out.push(n as u8 | 128);
        n >>= 7;
    }
    out.push(n as u8);
}

pub fn put_uint(field: u64, n: u64, out: &mut Vec<u8>) {
    put_varint(field << 3, out);
    put_varint(n, out);
}

pub fn put_bytes(field: u64, bytes: &[u8], out: &mut Vec<u8>) {
    put_varint(field << 3 | 2, out);
    put_varint(bytes.len() as u64, out);
    out.extend_from_slice(bytes);
}

pub fn address_bytes(address: &Address) -> Vec<u8> {
    let mut out = Vec::new();
    put_bytes(1, address.protocol.as_bytes(), &mut out);
    put_bytes(2, address.system.as_bytes(), &mut out);
    put_bytes(3, address.host.as_bytes(), &mut out);
    put_uint(4, address.port as u64, &mut out);
    out
}

pub fn unique_bytes(who: &Unique) -> Vec<u8> {
    let mut out = Vec::new();
    put_bytes(1, &address_bytes(&who.address), &mut out);
    put_uint(2, who.uid, &mut out);
    out
}

/// A frame's length, which `end_frame` fills in, and the start of its envelope, whose names follow.
pub fn begin_frame(uid: u64, refs: u8, manifests: u8, serializer: i32, out: &mut Vec<u8>) {
    out.extend_from_slice(&[0; 4]);
    out.extend_from_slice(&[0, 0, refs, manifests]);
    out.extend_from_slice(&uid.to_le_bytes());
    out.extend_from_slice(&serializer.to_le_bytes());
    out.extend_from_slice(&[0; 12]);
}

/// One of the three names of the envelope that begins at `start`.
pub fn put_name(start: usize, place: usize, name: &[u8], index: Option<u16>, out: &mut Vec<u8>) {
    let tag = match index {
        Some(index) => 0xff00_0000 + index as u32,
        None => {
            let at = (out.len() - start - 4) as u32;
            out.extend_from_slice(&(name.len() as u16).to_le_bytes());
            out.extend_from_slice(name);
            at
        }
    };
    let at = start + 20 + 4 * place;
    out[at..at + 4].copy_from_slice(&tag.to_le_bytes());
}

pub fn end_frame(start: usize, out: &mut [u8]) {
    let len = (out.len() - start - 4) as u32;
    out[start..start + 4].copy_from_slice(&len.to_le_bytes());
}

pub fn begin_control(uid: u64, letter: u8, out: &mut Vec<u8>) -> usize {
    let start = out.len();
    begin_frame(uid, 0, 0, 17, out);
    put_name(start, 0, b"", None, out);
    put_name(start, 1, b"", None, out);
    put_name(start, 2, &[letter], None, out);
    start
}

// ---- reading

pub enum Name<'a> {
    Literal(&'a [u8]),
    Index(u16),
}

pub struct Envelope<'a> {
    pub uid: u64,
    pub refs: u8,
    pub manifests: u8,
    pub serializer: i32,
    pub names: [Name<'a>; 3],
    pub payload: &'a [u8],
}

pub fn envelope(frame: &[u8]) -> Option<Envelope<'_>> {
    if frame.len() < 28 || frame[0] != 0 || frame[1] & 1 != 0 {
        return None;
    }
    let (mut names, mut at) = ([Name::Index(0), Name::Index(0), Name::Index(0)], 28);
    for (k, name) in names.iter_mut().enumerate() {
        let tag = u32::from_le_bytes(frame[16 + 4 * k..20 + 4 * k].try_into().unwrap());
        if tag & 0xff00_0000 != 0 {
            *name = Name::Index(tag as u16);
            continue;
        }
        let len = u16::from_le_bytes(frame.get(at..at + 2)?.try_into().unwrap()) as usize;
        let text = frame.get(at + 2..at + 2 + len).filter(|text| text.is_ascii())?;
        *name = Name::Literal(text);
        at += 2 + len;
    }
    Some(Envelope {
        uid: u64::from_le_bytes(frame[4..12].try_into().unwrap()),
        refs: frame[2],
        manifests: frame[3],
        serializer: i32::from_le_bytes(frame[12..16].try_into().unwrap()),
        names,
        payload: &frame[at..],
    })
}

fn part(bytes: &[u8]) -> Option<String> {
    if is_part(bytes) { string(bytes) } else { None }
}

fn address_in(bytes: &[u8]) -> Option<Address> {
    let (mut protocol, mut system, mut host, mut port) = (None, None, None, None);
    for (field, value) in (Fields { rest: bytes }) {
        match (field, value) {
            (1, Value::Bytes(b)) => protocol = part(b),
            (2, Value::Bytes(b)) => system = part(b),
            (3, Value::Bytes(b)) => host = part(b),
            (4, Value::Number(n)) => port = u16::try_from(n).ok().filter(|port| *port > 0),
            _ => {}
        }
    }
    Some(Address { protocol: protocol?, system: system?, host: host?, port: port? })
}

fn unique_in(bytes: &[u8]) -> Option<Unique> {
    let (mut address, mut uid) = (None, None);
    for (field, value) in (Fields { rest: bytes }) {
        match (field, value) {
            (1, Value::Bytes(b)) => address = address_in(b),
            (2, Value::Number(n)) => uid = Some(n),
            _ => {}
        }
    }
    Some(Unique { address: address?, uid: uid? })
}

pub fn control_in<'a>(letter: u8, payload: &'a [u8]) -> Option<Control<'a>> {
    let mut numbers = [None; 16];
    let mut bytes: [Option<&'a [u8]>; 16] = [None; 16];
    let (mut keys, mut values) = (Vec::new(), Vec::new());
    let is_table = letter == b'f' || letter == b'h';
    for (field, value) in (Fields { rest: payload }) {
        match value {
            Value::Number(n) if is_table && field == 5 => values.push(u16::try_from(n).ok()?),
            Value::Bytes(b) if is_table && field == 4 => keys.push(b),
            Value::Number(n) if field < 16 => numbers[field as usize] = Some(n),
            Value::Bytes(b) if field < 16 => bytes[field as usize] = Some(b),
            _ => {}
        }
    }
    Some(match letter {
        b'a' => Control::Quarantined { from: unique_in(bytes[1]?)?, to: unique_in(bytes[2]?)? },
        b'd' => Control::Request { from: unique_in(bytes[1]?)?, to: address_in(bytes[2]?)?, nonce: numbers[15] },
        b'e' => Control::Response { from: unique_in(bytes[1]?)?, for_uid: numbers[14], nonce: numbers[15] },
        b'f' | b'h' => {
            let number = numbers[6].or(numbers[3])?;
            Control::Table { refs: letter == b'f', from: unique_in(bytes[1]?)?, origin_uid: numbers[2]?, number, keys, values }
        }
        b'g' | b'i' => Control::TableAck { refs: letter == b'g', from: unique_in(bytes[1]?)?, number: numbers[3].or(numbers[2])? },
        b'j' => Control::Numbered {
            n: numbers[4]?,
            serializer: numbers[2]? as i32,
            manifest: bytes[3].unwrap_or(&[]),
            payload: bytes[1]?,
            reply_to: unique_in(bytes[5]?)?,
        },
        b'k' | b'l' => Control::Ack { nack: letter == b'l', n: numbers[1]?, from: unique_in(bytes[2]?)? },
        b'm' => Control::Heartbeat,
        b'n' => Control::HeartbeatAnswer { uid: numbers[1]? },
        _ => return None,
    })
}

/// The notice that a system message bears: the actor and its watcher.
pub fn notice_in(payload: &[u8]) -> Option<(&[u8], &[u8])> {
    fn text(rest: &[u8]) -> Option<(&[u8], &[u8])> {
        let (len, rest) = rest.split_at_checked(2)?;
        let (text, rest) = rest.split_at_checked(u16::from_le_bytes([len[0], len[1]]) as usize)?;
        text.is_ascii().then_some((text, rest))
    }
    let (actor, rest) = text(payload)?;
    let (watcher, rest) = text(rest)?;
    rest.is_empty().then_some((actor, watcher))
}

pub fn notice(actor: &[u8], watcher: &[u8]) -> Vec<u8> {
    let mut out = Vec::with_capacity(4 + actor.len() + watcher.len());
    for text in [actor, watcher] {
        out.extend_from_slice(&(text.len() as u16).to_le_bytes());
        out.extend_from_slice(text);
    }
    out
}
