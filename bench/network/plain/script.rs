//! Scripts: their events and how lines tell them, and the scripts that have a number.
use crate::text::{self, Address, Message, Tell, Unique};

pub enum Request {
    Pair(Address),
    Send(Address, Message),
    Tell(Address, Tell),
    Watch(Vec<u8>, Address, Vec<u8>),
    Unwatch(Vec<u8>, Address, Vec<u8>),
    Spawn(Vec<u8>),
    Kill(Vec<u8>),
    Quarantine(Address),
}

pub enum Event {
    Start(Unique),
    Stop(u64),
    At(u64, Request),
    Tick(u64, u64),
    Answer(u64, u64),
    Fail(u64, u64),
    Carry(u64, u64, u64),
    Cut(u64, u64),
    End(u64, u64),
    CutAll(u64),
    EndAll(u64),
    Pass(u64),
}

/// The address that a request names.
pub fn named(request: &Request) -> Option<&Address> {
    match request {
        Request::Pair(address) | Request::Send(address, _) | Request::Tell(address, _) | Request::Quarantine(address) => Some(address),
        Request::Watch(_, address, _) | Request::Unwatch(_, address, _) => Some(address),
        Request::Spawn(_) | Request::Kill(_) => None,
    }
}

fn name(token: &[u8]) -> Option<Vec<u8>> {
    text::word(token).filter(|name| name.len() <= 4_096)
}

fn ascii_name(token: &[u8]) -> Option<Vec<u8>> {
    name(token).filter(|name| name.is_ascii())
}

fn payload(token: &[u8]) -> Option<Vec<u8>> {
    text::hex(token).filter(|payload| payload.len() <= 131_072)
}

fn path(token: &[u8]) -> Option<Vec<u8>> {
    (text::is_path(token) && token.len() <= 1_024).then(|| token.to_vec())
}

fn reference(token: &[u8]) -> Option<(Address, Vec<u8>)> {
    let (address, _) = text::reference(token)?;
    (token.len() <= 4_096).then(|| (address, token.to_vec()))
}

fn request(tokens: &[&[u8]]) -> Option<Request> {
    match tokens {
        [b"pair", a] => Some(Request::Pair(text::address(a)?)),
        [b"quarantine", a] => Some(Request::Quarantine(text::address(a)?)),
        [b"send", a, s, m, p] => {
            let message = Message { serializer: text::int32(s)?, manifest: name(m)?, payload: payload(p)? };
            Some(Request::Send(text::address(a)?, message))
        }
        [b"tell", a, from, to, s, m, p] => {
            let serializer = text::int32(s).filter(|s| *s != 17)?;
            let (sender, recipient) = (ascii_name(from)?, ascii_name(to)?);
            let message = Tell { sender, recipient, serializer, manifest: ascii_name(m)?, payload: payload(p)? };
            Some(Request::Tell(text::address(a)?, message))
        }
        [b"watch", p, r] => reference(r).and_then(|(address, r)| Some(Request::Watch(path(p)?, address, r))),
        [b"unwatch", p, r] => reference(r).and_then(|(address, r)| Some(Request::Unwatch(path(p)?, address, r))),
        [b"spawn", p] => Some(Request::Spawn(path(p)?)),
        [b"kill", p] => Some(Request::Kill(path(p)?)),
        _ => None,
    }
}

fn event(line: &[u8]) -> Option<Event> {
    let tokens: Vec<&[u8]> = line.split(|b| *b == b' ').collect();
    let n = text::number;
    match tokens.as_slice() {
        [b"start", a, uid] => Some(Event::Start(Unique { address: text::address(a)?, uid: n(uid)? })),
        [b"stop", uid] => Some(Event::Stop(n(uid)?)),
        [b"at", uid, rest @ ..] if !rest.is_empty() => Some(Event::At(n(uid)?, request(rest)?)),
        [b"tick", uid, moment] => Some(Event::Tick(n(uid)?, n(moment).filter(|m| *m < 1 << 62)?)),
        [b"answer", uid, dial] => Some(Event::Answer(n(uid)?, n(dial)?)),
        [b"fail", uid, dial] => Some(Event::Fail(n(uid)?, n(dial)?)),
        [b"carry", uid, dial, count] => Some(Event::Carry(n(uid)?, n(dial)?, n(count).filter(|c| *c > 0)?)),
        [b"cut", uid, b"all"] => Some(Event::CutAll(n(uid)?)),
        [b"end", uid, b"all"] => Some(Event::EndAll(n(uid)?)),
        [b"cut", uid, dial] => Some(Event::Cut(n(uid)?, n(dial)?)),
        [b"end", uid, dial] => Some(Event::End(n(uid)?, n(dial)?)),
        [b"pass", k] => Some(Event::Pass(n(k).filter(|k| (1..=1_000).contains(k))?)),
        _ => None,
    }
}

pub fn lines(text: &[u8]) -> impl Iterator<Item = &[u8]> {
    let body = text.strip_suffix(b"\n").unwrap_or(text);
    let some = if text.is_empty() { 0 } else { usize::MAX };
    body.split(|b| *b == b'\n').take(some)
}

/// The events with the numbers of their lines, or the number of the first bad line.
pub fn read(text: &[u8]) -> Result<Vec<(usize, Event)>, usize> {
    let mut events = Vec::new();
    for (k, line) in lines(text).enumerate() {
        if !line.is_empty() && line[0] != b'#' {
            events.push((k + 1, event(line).ok_or(k + 1)?));
        }
    }
    Ok(events)
}

const ADDRESSES: [&str; 3] = ["akka://A@h1:25520", "akka://B@h2:25520", "akka://C@h3:25520"];

fn restart(out: &mut String, live: &mut [u64; 3], i: usize, k: u64) {
    *out += &format!("stop {0}\nend {0} all\n", live[i]);
    for o in (0..3).filter(|o| *o != i) {
        *out += &format!("cut {0} all\nend {0} all\n", live[o]);
    }
    live[i] = k + 3;
    *out += &format!("start {} {1}\nat {1} spawn /user/x\n", ADDRESSES[i], live[i]);
}

/// The script with a number.
pub fn generate(n: u64) -> String {
    let (mut out, mut live, mut x) = (String::new(), [1, 2, 3], n);
    for i in 0..3 {
        out += &format!("start {} {}\n", ADDRESSES[i], live[i]);
    }
    for uid in live {
        out += &format!("at {uid} spawn /user/x\n");
    }
    for k in 1..=n {
        x = (x * 1_103_515_245 + 12_345) % (1 << 31);
        let q = x / 65_536;
        let i = (q % 3) as usize;
        let j = (i + 1 + (q / 3 % 2) as usize) % 3;
        let (uid, from, to) = (live[i], ADDRESSES[i], ADDRESSES[j]);
        match q / 6 % 10 {
            0..=2 => out += &format!("at {uid} send {to} 5 x {k:08x}\n"),
            3 | 4 => out += &format!("at {uid} tell {to} {from}/user/w {to}/user/x 4 T {k:08x}\n"),
            5 => out += "pass 3\n",
            6 => out += &format!("at {uid} watch /user/w {to}/user/x\n"),
            7 => live.iter().for_each(|uid| out += &format!("tick {uid} {}\n", 1_000 * k)),
            8 => out += &format!("cut {uid} all\nend {uid} all\n"),
            _ if k % 7 == 0 => restart(&mut out, &mut live, i, k),
            _ => out += "pass 1\n",
        }
    }
    for t in 1..=3 {
        live.iter().for_each(|uid| out += &format!("tick {uid} {}\n", 1_000 * (n + t)));
        out += "pass 9\n";
    }
    out
}
