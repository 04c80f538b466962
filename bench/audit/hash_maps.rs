// The audit of journals of form 1 in plain Rust: each line is read into an enum that owns its texts, the laws are decided with HashMaps,
// and a part that waits is looked at again when a line sends or tells its incarnation something. It knows the lines that the laws speak
// of, and no others.

#[path = "../journal_lines.rs"]
mod journal_lines;

use journal_lines::{Deed, Line, Message, Tell, Unique, line, unique};
use std::collections::{HashMap, HashSet, VecDeque};
use std::io::{Read, Write};

#[derive(Default)]
struct Judge<'a> {
    sent: HashMap<(&'a Unique, &'a Unique), VecDeque<(u64, &'a Message)>>,
    told: HashMap<(&'a Unique, &'a Unique, u64), VecDeque<&'a Tell>>,
    closed: HashSet<(&'a Unique, &'a Unique)>,
    began: HashSet<(&'a Unique, u64)>,
    ended: HashSet<(&'a Unique, u64)>,
    nodes: HashMap<&'a Unique, bool>,
}

impl<'a> Judge<'a> {
    /// The first law that a line breaks.
    fn breaks(&self, line: &'a Line) -> Option<&'static str> {
        let of = &line.of;
        if let Deed::Took(other, n, message) = &line.deed {
            if self.sent.get(&(other, of)).and_then(|queue| queue.front()) != Some(&(*n, message)) {
                return Some("prefix");
            }
        }
        match &line.deed {
            Deed::Learnt(other) | Deed::Closed(other) | Deed::Sent(other, ..) | Deed::Took(other, ..) | Deed::Told(other, ..) | Deed::Got(other, ..) => {
                if self.closed.contains(&(of, other)) {
                    return Some("closed");
                }
            }
            _ => {}
        }
        match &line.deed {
            Deed::Watched(id, _, _) if self.began.contains(&(of, *id)) => return Some("watch"),
            Deed::Unwatched(id) | Deed::Terminated(id) if !self.began.contains(&(of, *id)) || self.ended.contains(&(of, *id)) => return Some("watch"),
            _ => {}
        }
        if let Deed::Got(other, nonce, message) = &line.deed {
            let queue = nonce.and_then(|nonce| self.told.get(&(other, of, nonce)));
            if !queue.is_some_and(|queue| queue.iter().any(|told| *told == message)) {
                return Some("ordinary");
            }
        }
        match self.nodes.get(of) {
            Some(true) => Some("stopped"),
            Some(false) if matches!(line.deed, Deed::Started) => Some("stopped"),
            _ => None,
        }
    }

    /// Takes a line that breaks no law.
    fn take(&mut self, line: &'a Line) {
        let of = &line.of;
        self.nodes.insert(of, matches!(line.deed, Deed::Stopped));
        match &line.deed {
            Deed::Sent(other, n, message) => self.sent.entry((of, other)).or_default().push_back((*n, message)),
            Deed::Told(other, dial, message) => self.told.entry((of, other, *dial)).or_default().push_back(message),
            Deed::Took(other, ..) => {
                self.sent.get_mut(&(other, of)).map(|queue| queue.pop_front());
            }
            Deed::Got(other, Some(nonce), message) => {
                if let Some(queue) = self.told.get_mut(&(other, of, *nonce)) {
                    while queue.pop_front().is_some_and(|told| told != message) {}
                }
            }
            Deed::Closed(other) => {
                self.closed.insert((of, other));
            }
            Deed::Watched(id, _, _) => {
                self.began.insert((of, *id));
            }
            Deed::Unwatched(id) | Deed::Terminated(id) => {
                self.ended.insert((of, *id));
            }
            _ => {}
        }
    }
}

struct Part<'t> {
    name: &'t str,
    of: Unique,
    lines: Vec<Line>,
    texts: Vec<&'t str>,
}

fn end(text: &str, status: i32) -> ! {
    println!("{text}");
    std::process::exit(status)
}

fn parts(text: &str) -> Vec<Part<'_>> {
    let mut parts: Vec<Part> = Vec::new();
    let mut names = HashSet::new();
    let text = text.strip_suffix('\n').map_or(if text.is_empty() { None } else { Some(text) }, Some);
    for (k, told) in text.into_iter().flat_map(|text| text.split('\n')).enumerate() {
        let good = match told.strip_prefix("of ") {
            Some(name) => unique(name).filter(|_| names.insert(name)).map(|of| parts.push(Part { name, of, lines: Vec::new(), texts: Vec::new() })),
            None => line(told).and_then(|line| {
                let part = parts.last_mut().filter(|part| part.of == line.of)?;
                part.lines.push(line);
                part.texts.push(told);
                Some(())
            }),
        };
        if good.is_none() {
            end(&format!("fault line {}", k + 1), 2);
        }
    }
    if parts.len() > 64 {
        end("fault limit parts", 6);
    }
    parts
}

fn main() {
    let merge = std::env::args().any(|word| word == "--merge");
    let mut text = Vec::new();
    std::io::stdin().read_to_end(&mut text).unwrap();
    let text = String::from_utf8(text).unwrap();
    let parts = parts(&text);
    let places: HashMap<&Unique, usize> = parts.iter().enumerate().map(|(k, part)| (&part.of, k)).collect();
    let mut judge = Judge::default();
    let mut taken = vec![0; parts.len()];
    let mut ready = vec![true; parts.len()];
    let mut merged = Vec::new();
    while let Some(k) = ready.iter().position(|ready| *ready) {
        match parts[k].lines.get(taken[k]) {
            Some(line) if judge.breaks(line).is_none() => {
                judge.take(line);
                merged.push(parts[k].texts[taken[k]]);
                taken[k] += 1;
                if let Deed::Sent(other, ..) | Deed::Told(other, ..) = &line.deed {
                    if let Some(&place) = places.get(other) {
                        ready[place] = true;
                    }
                }
            }
            _ => ready[k] = false,
        }
    }
    for (k, part) in parts.iter().enumerate() {
        if let Some(line) = part.lines.get(taken[k]) {
            end(&format!("fault audit {} {} {}", part.name, taken[k] + 1, judge.breaks(line).unwrap()), 1);
        }
    }
    let mut out = std::io::BufWriter::new(std::io::stdout().lock());
    if merge {
        for text in merged {
            writeln!(out, "{text}").unwrap();
        }
    } else {
        writeln!(out, "lawful").unwrap();
    }
    out.flush().unwrap();
}
