//! For the plain Rust programs of two benchmarks, which take this file in: the lines of journals of form 1 that the laws speak of, each read
//! into an enum that owns its texts.
#![allow(dead_code)] // texts of watches are read and kept, though no law asks for them

#[derive(Clone, PartialEq, Eq, Hash)]
pub struct Address {
    pub protocol: String,
    pub system: String,
    pub host: String,
    pub port: u16,
}

#[derive(Clone, PartialEq, Eq, Hash)]
pub struct Unique {
    pub address: Address,
    pub uid: u64,
}

#[derive(PartialEq, Eq)]
pub struct Message {
    pub serializer: i32,
    pub manifest: Vec<u8>,
    pub payload: Vec<u8>,
}

#[derive(PartialEq, Eq)]
pub struct Tell {
    pub sender: String,
    pub recipient: String,
    pub message: Message,
}

pub enum Deed {
    Started,
    Stopped,
    Learnt(Unique),
    Closed(Unique),
    Sent(Unique, u64, Message),
    Took(Unique, u64, Message),
    Told(Unique, u64, Tell),
    Got(Unique, Option<u64>, Tell),
    Watched(u64, String, String),
    Unwatched(u64),
    Terminated(u64),
}

pub struct Line {
    pub of: Unique,
    pub deed: Deed,
}

pub fn number(text: &str) -> Option<u64> {
    if text.is_empty() || (text.len() > 1 && text.starts_with('0')) || !text.bytes().all(|b| b.is_ascii_digit()) {
        return None;
    }
    text.parse().ok()
}

pub fn int32(text: &str) -> Option<i32> {
    match text.strip_prefix('-') {
        Some(rest) => {
            let n = number(rest)?;
            if n == 0 || n > 1 << 31 { None } else { Some((-(n as i64)) as i32) }
        }
        None => i32::try_from(number(text)?).ok(),
    }
}

pub fn part(text: &str) -> Option<String> {
    let good = |b: u8| b.is_ascii_alphanumeric() || b == b'-' || b == b'_' || b == b'.';
    if text.is_empty() || text.len() > 255 || !text.bytes().all(good) {
        return None;
    }
    Some(text.to_string())
}

pub fn address(text: &str) -> Option<Address> {
    let (protocol, rest) = text.split_once("://")?;
    let (system, rest) = rest.split_once('@')?;
    let (host, port) = rest.split_once(':')?;
    let port = u16::try_from(number(port)?).ok()?;
    if port == 0 {
        return None;
    }
    Some(Address { protocol: part(protocol)?, system: part(system)?, host: part(host)?, port })
}

pub fn unique(text: &str) -> Option<Unique> {
    let (front, uid) = text.rsplit_once('#')?;
    Some(Unique { uid: number(uid)?, address: address(front)? })
}

pub fn digit(b: u8) -> Option<u8> {
    match b {
        b'0'..=b'9' => Some(b - b'0'),
        b'a'..=b'f' => Some(b - b'a' + 10),
        _ => None,
    }
}

pub fn hex(text: &str) -> Option<Vec<u8>> {
    if text == "-" {
        return Some(Vec::new());
    }
    if text.is_empty() || text.len() % 2 == 1 {
        return None;
    }
    text.as_bytes().chunks(2).map(|pair| Some(digit(pair[0])? * 16 + digit(pair[1])?)).collect()
}

pub fn plain(b: u8) -> bool {
    (33..=126).contains(&b) && b != b'%'
}

pub fn word(text: &str) -> Option<Vec<u8>> {
    if text == "-" {
        return Some(Vec::new());
    }
    let bytes = text.as_bytes();
    if bytes.is_empty() || bytes[0] == b'@' {
        return None;
    }
    let mut out = Vec::with_capacity(bytes.len());
    let mut at = 0;
    while at < bytes.len() {
        if plain(bytes[at]) {
            out.push(bytes[at]);
            at += 1;
            continue;
        }
        if bytes[at] != b'%' || at + 2 >= bytes.len() {
            return None;
        }
        let byte = digit(bytes[at + 1])? * 16 + digit(bytes[at + 2])?;
        let reserved = at == 0 && (byte == b'@' || (byte == b'-' && bytes.len() == 3));
        if plain(byte) && !reserved {
            return None;
        }
        out.push(byte);
        at += 3;
    }
    Some(out)
}

pub fn name(text: &str) -> Option<String> {
    let bytes = word(text)?;
    if bytes.is_ascii() { String::from_utf8(bytes).ok() } else { None }
}

pub fn reference(text: &str) -> Option<String> {
    let slash = text.match_indices('/').nth(2)?.0;
    address(&text[..slash])?;
    let path = &text[slash..];
    if path.len() < 2 || !path.bytes().all(plain) {
        return None;
    }
    Some(text.to_string())
}

pub fn message<'a>(fields: &mut impl Iterator<Item = &'a str>) -> Option<Message> {
    Some(Message { serializer: int32(fields.next()?)?, manifest: word(fields.next()?)?, payload: hex(fields.next()?)? })
}

pub fn tell<'a>(fields: &mut impl Iterator<Item = &'a str>) -> Option<Tell> {
    Some(Tell { sender: name(fields.next()?)?, recipient: name(fields.next()?)?, message: message(fields)? })
}

pub fn line(text: &str) -> Option<Line> {
    let mut fields = text.split(' ');
    let of = unique(fields.next()?)?;
    let deed = match fields.next()? {
        "started" => Deed::Started,
        "stopped" => Deed::Stopped,
        "learnt" => Deed::Learnt(unique(fields.next()?)?),
        "closed" => {
            let other = unique(fields.next()?)?;
            if !["superseded", "quarantined", "unreachable", "overflow", "undelivered"].contains(&fields.next()?) {
                return None;
            }
            Deed::Closed(other)
        }
        "sent" => Deed::Sent(unique(fields.next()?)?, number(fields.next()?)?, message(&mut fields)?),
        "took" => Deed::Took(unique(fields.next()?)?, number(fields.next()?)?, message(&mut fields)?),
        "told" => Deed::Told(unique(fields.next()?)?, number(fields.next()?)?, tell(&mut fields)?),
        "got" => {
            let other = unique(fields.next()?)?;
            let nonce = match fields.next()? {
                "-" => None,
                text => Some(number(text)?),
            };
            Deed::Got(other, nonce, tell(&mut fields)?)
        }
        "watched" => Deed::Watched(number(fields.next()?)?, reference(fields.next()?)?, reference(fields.next()?)?),
        "unwatched" => Deed::Unwatched(number(fields.next()?)?),
        "terminated" => Deed::Terminated(number(fields.next()?)?),
        _ => return None,
    };
    if fields.next().is_some() { None } else { Some(Line { of, deed }) }
}
