//! The same in plain Rust: what is announced is a HashMap from versions to lists of names, what was adopted one from names to indices.
use std::collections::HashMap;
use std::time::Instant;

const MESSAGES: u64 = 1_000_000;
const PAYLOAD: [u8; 64] = [7; 64];

struct Message<'a> {
    uid: u64,
    serializer: i32,
    sender: &'a [u8],
    recipient: &'a [u8],
    manifest: &'a [u8],
    payload: &'a [u8],
}

#[derive(Debug)]
enum Rule {
    Short,
    Version,
    Metadata,
    LiteralPast,
    NotAscii,
    UnknownVersion,
    UnknownIndex,
}

#[derive(Debug)]
enum Fault {
    LiteralLong,
    FrameLong,
}

type InTables = HashMap<u8, Vec<Vec<u8>>>;

struct OutTable {
    version: u8,
    indices: HashMap<Vec<u8>, u16>,
}

enum Name<'a> {
    Literal(&'a [u8]),
    Index(u16),
}

fn u32_at(bytes: &[u8], at: usize) -> u32 {
    u32::from_le_bytes(bytes[at..at + 4].try_into().unwrap())
}

fn name_at<'a>(bytes: &'a [u8], tag: u32, at: &mut usize) -> Result<Name<'a>, Rule> {
    if tag & 0xFF00_0000 != 0 {
        return Ok(Name::Index(tag as u16));
    }
    let len = bytes.get(*at..*at + 2).ok_or(Rule::LiteralPast)?;
    let len = u16::from_le_bytes(len.try_into().unwrap()) as usize;
    let text = bytes.get(*at + 2..*at + 2 + len).ok_or(Rule::LiteralPast)?;
    *at += 2 + len;
    if text.is_ascii() { Ok(Name::Literal(text)) } else { Err(Rule::NotAscii) }
}

fn name_of<'a>(name: Name<'a>, version: u8, tables: &'a InTables) -> Result<&'a [u8], Rule> {
    match name {
        Name::Literal(text) => Ok(text),
        Name::Index(index) => {
            let names = tables.get(&version).ok_or(Rule::UnknownVersion)?;
            names.get(index as usize).map(Vec::as_slice).ok_or(Rule::UnknownIndex)
        }
    }
}

fn decode<'a>(bytes: &'a [u8], refs: &'a InTables, manifests: &'a InTables) -> Result<Message<'a>, Rule> {
    if bytes.len() < 28 {
        return Err(Rule::Short);
    }
    if bytes[0] != 0 {
        return Err(Rule::Version);
    }
    if bytes[1] & 1 != 0 {
        return Err(Rule::Metadata);
    }
    let mut at = 28;
    let sender = name_at(bytes, u32_at(bytes, 16), &mut at)?;
    let recipient = name_at(bytes, u32_at(bytes, 20), &mut at)?;
    let manifest = name_at(bytes, u32_at(bytes, 24), &mut at)?;
    Ok(Message {
        uid: u64::from_le_bytes(bytes[4..12].try_into().unwrap()),
        serializer: u32_at(bytes, 12) as i32,
        sender: name_of(sender, bytes[2], refs)?,
        recipient: name_of(recipient, bytes[2], refs)?,
        manifest: name_of(manifest, bytes[3], manifests)?,
        payload: &bytes[at..],
    })
}

fn name_in<'a>(name: &'a [u8], table: &OutTable) -> Name<'a> {
    if name.is_empty() {
        return Name::Literal(name);
    }
    match table.indices.get(name) {
        Some(index) => Name::Index(*index),
        None => Name::Literal(name),
    }
}

fn encode(message: &Message, refs: &OutTable, manifests: &OutTable, out: &mut Vec<u8>) -> Result<(), Fault> {
    let names = [name_in(message.sender, refs), name_in(message.recipient, refs), name_in(message.manifest, manifests)];
    let mut len = 28 + message.payload.len();
    for name in &names {
        if let Name::Literal(text) = name {
            if text.len() > 65_535 {
                return Err(Fault::LiteralLong);
            }
            len += 2 + text.len();
        }
    }
    if len > 262_144 {
        return Err(Fault::FrameLong);
    }
    out.extend_from_slice(&[0, 0, refs.version, manifests.version]);
    out.extend_from_slice(&message.uid.to_le_bytes());
    out.extend_from_slice(&message.serializer.to_le_bytes());
    let mut at = 28u32;
    for name in &names {
        match name {
            Name::Literal(text) => {
                out.extend_from_slice(&at.to_le_bytes());
                at += 2 + text.len() as u32;
            }
            Name::Index(index) => out.extend_from_slice(&(0xFF00_0000 + *index as u32).to_le_bytes()),
        }
    }
    for name in &names {
        if let Name::Literal(text) = name {
            out.extend_from_slice(&(text.len() as u16).to_le_bytes());
            out.extend_from_slice(text);
        }
    }
    out.extend_from_slice(message.payload);
    Ok(())
}

fn encodes(names: &[Vec<u8>], table: &OutTable, n: u64, out: &mut Vec<u8>) {
    let at = n as usize;
    let message = Message {
        uid: n,
        serializer: 4,
        sender: &names[at % 256],
        recipient: &names[at / 2 % 256],
        manifest: &names[at / 3 % 256],
        payload: &PAYLOAD,
    };
    encode(&message, table, table, out).unwrap();
}

fn encode_all(names: &[Vec<u8>], table: &OutTable, out: &mut Vec<u8>) -> u64 {
    let mut sum = 0u64;
    for n in 0..MESSAGES {
        out.clear();
        encodes(names, table, n, out);
        for place in [16, 20, 24] {
            sum = sum.wrapping_mul(31).wrapping_add(out[place] as u64);
        }
    }
    sum
}

fn told_of(message: &Message) -> u64 {
    let mut told = message.uid;
    for name in [message.sender, message.recipient, message.manifest] {
        told = told.wrapping_mul(31).wrapping_add(*name.last().unwrap() as u64);
    }
    told.wrapping_add(message.payload.len() as u64)
}

fn decode_all(frames: &[Vec<u8>], tables: &InTables) -> u64 {
    let mut sum = 0u64;
    for n in 0..MESSAGES {
        match decode(&frames[n as usize % 1_024], tables, tables) {
            Ok(message) => sum = sum.wrapping_add(told_of(&message)),
            Err(rule) => panic!("{rule:?}"),
        }
    }
    sum
}

fn main() {
    let names: Vec<Vec<u8>> = (0..256).map(|n| format!("akka://B@host:25520/user/{n:03}").into_bytes()).collect();
    let out_table = OutTable { version: 1, indices: names.iter().cloned().zip(0u16..).collect() };
    let in_tables = InTables::from([(1, names.clone())]);
    let mut frames = Vec::new();
    for n in 0..1_024 {
        let mut frame = Vec::new();
        encodes(&names, &out_table, n, &mut frame);
        frames.push(frame);
    }
    let mut out = Vec::new();
    let (mut encoded, mut decoded, mut encoding, mut decoding) = (0, 0, u128::MAX, u128::MAX);
    for _ in 0..5 {
        let start = Instant::now();
        encoded = encode_all(&names, &out_table, &mut out);
        encoding = encoding.min(start.elapsed().as_micros());
        let start = Instant::now();
        decoded = decode_all(&frames, &in_tables);
        decoding = decoding.min(start.elapsed().as_micros());
    }
    println!("{encoded} {decoded} {encoding} {decoding}");
}
