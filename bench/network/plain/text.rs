//! Values and their texts.
use std::fmt;

#[derive(Clone, PartialEq, Eq, Hash)]
pub struct Address {
    pub protocol: String,
    pub system: String,
    pub host: String,
    pub port: u16,
}

#[derive(Clone, PartialEq, Eq, Hash)]
pub struct Unique {
    pub address: Address,
    pub uid: u64,
}

impl fmt::Display for Address {
    fn fmt(&self, f: &mut fmt::Formatter) -> fmt::Result {
        write!(f, "{}://{}@{}:{}", self.protocol, self.system, self.host, self.port)
    }
}

impl fmt::Display for Unique {
    fn fmt(&self, f: &mut fmt::Formatter) -> fmt::Result {
        write!(f, "{}#{}", self.address, self.uid)
    }
}

/// A system message.
pub struct Message {
    pub serializer: i32,
    pub manifest: Vec<u8>,
    pub payload: Vec<u8>,
}

/// An ordinary message; its names are ASCII.
pub struct Tell {
    pub sender: Vec<u8>,
    pub recipient: Vec<u8>,
    pub serializer: i32,
    pub manifest: Vec<u8>,
    pub payload: Vec<u8>,
}

pub fn number(text: &[u8]) -> Option<u64> {
    if text.is_empty() || (text[0] == b'0' && text.len() > 1) || !text.iter().all(u8::is_ascii_digit) {
        return None;
    }
    std::str::from_utf8(text).ok()?.parse().ok()
}

pub fn int32(text: &[u8]) -> Option<i32> {
    match text.strip_prefix(b"-") {
        Some(digits) => match number(digits)? {
            0 => None,
            n => i32::try_from(-i128::from(n)).ok(),
        },
        None => i32::try_from(number(text)?).ok(),
    }
}

fn find(text: &[u8], part: &[u8], from: usize) -> Option<usize> {
    text.get(from..)?.windows(part.len()).position(|w| w == part).map(|at| from + at)
}

pub fn is_part(text: &[u8]) -> bool {
    (1..=255).contains(&text.len()) && text.iter().all(|b| b.is_ascii_alphanumeric() || matches!(b, b'_' | b'.' | b'-'))
}

pub fn string(text: &[u8]) -> Option<String> {
    String::from_utf8(text.to_vec()).ok()
}

pub fn address(text: &[u8]) -> Option<Address> {
    let scheme = find(text, b"://", 0)?;
    let at = find(text, b"@", scheme + 3)?;
    let colon = find(text, b":", at + 1)?;
    let (protocol, system, host) = (&text[..scheme], &text[scheme + 3..at], &text[at + 1..colon]);
    if ![protocol, system, host].iter().all(|part| is_part(part)) {
        return None;
    }
    let port = u16::try_from(number(&text[colon + 1..])?).ok().filter(|port| *port > 0)?;
    Some(Address { protocol: string(protocol)?, system: string(system)?, host: string(host)?, port })
}

pub fn is_path(text: &[u8]) -> bool {
    text.len() > 1 && text[0] == b'/' && text[1..].iter().all(|b| (0x21..=0x7e).contains(b) && *b != b'%')
}

/// The address and the path of a reference.
pub fn reference(text: &[u8]) -> Option<(Address, &[u8])> {
    let scheme = find(text, b"://", 0)?;
    let slash = find(text, b"/", scheme + 3)?;
    if !is_path(&text[slash..]) {
        return None;
    }
    Some((address(&text[..slash])?, &text[slash..]))
}

fn digit(b: u8) -> Option<u8> {
    match b {
        b'0'..=b'9' => Some(b - b'0'),
        b'a'..=b'f' => Some(b - b'a' + 10),
        _ => None,
    }
}

pub fn hex(text: &[u8]) -> Option<Vec<u8>> {
    if text == b"-" {
        return Some(Vec::new());
    }
    if text.is_empty() || text.len() % 2 != 0 {
        return None;
    }
    text.chunks_exact(2).map(|pair| Some(digit(pair[0])? * 16 + digit(pair[1])?)).collect()
}

fn is_plain(at: usize, b: u8) -> bool {
    (0x21..=0x7e).contains(&b) && b != b'%' && !(at == 0 && b == b'@')
}

pub fn word(text: &[u8]) -> Option<Vec<u8>> {
    match text {
        b"" => return None,
        b"-" => return Some(Vec::new()),
        b"%2d" => return Some(b"-".to_vec()),
        _ => {}
    }
    let (mut out, mut at) = (Vec::with_capacity(text.len()), 0);
    while at < text.len() {
        if text[at] == b'%' {
            let b = digit(*text.get(at + 1)?)? * 16 + digit(*text.get(at + 2)?)?;
            if is_plain(at, b) {
                return None;
            }
            out.push(b);
            at += 3;
        } else if is_plain(at, text[at]) {
            out.push(text[at]);
            at += 1;
        } else {
            return None;
        }
    }
    Some(out)
}

const DIGITS: &[u8; 16] = b"0123456789abcdef";

pub fn put_digits(bytes: &[u8], out: &mut Vec<u8>) {
    out.reserve(2 * bytes.len());
    for b in bytes {
        out.extend_from_slice(&[DIGITS[(b >> 4) as usize], DIGITS[(b & 15) as usize]]);
    }
}

pub fn put_hex(bytes: &[u8], out: &mut Vec<u8>) {
    if bytes.is_empty() {
        out.push(b'-');
    }
    put_digits(bytes, out);
}

pub fn put_word(bytes: &[u8], out: &mut Vec<u8>) {
    match bytes {
        b"" => return out.push(b'-'),
        b"-" => return out.extend_from_slice(b"%2d"),
        _ => {}
    }
    for (at, b) in bytes.iter().enumerate() {
        if is_plain(at, *b) {
            out.push(*b);
        } else {
            out.push(b'%');
            put_digits(&[*b], out);
        }
    }
}
