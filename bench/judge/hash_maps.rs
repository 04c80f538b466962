// The judge of journals of form 1 in plain Rust: each line is read into an enum that owns its texts, and the laws are decided with
// HashMaps. It knows the lines that the benchmark writes and no others.

#[path = "../journal_lines.rs"]
mod journal_lines;

use journal_lines::{Deed, Line, Message, Tell, Unique, line};
use std::collections::{HashMap, HashSet, VecDeque};
use std::io::{Read, Write};

#[derive(Default)]
struct Judge<'a> {
    sent: HashMap<(&'a Unique, &'a Unique), VecDeque<(u64, &'a Message)>>,
    told: HashMap<(&'a Unique, &'a Unique, u64), VecDeque<&'a Tell>>,
    closed: HashSet<(&'a Unique, &'a Unique)>,
    began: HashSet<(&'a Unique, u64)>,
    ended: HashSet<(&'a Unique, u64)>,
    nodes: HashMap<&'a Unique, bool>,
}

impl<'a> Judge<'a> {
    fn judge(&mut self, line: &'a Line) -> Option<&'static str> {
        let of = &line.of;
        if let Deed::Took(other, n, message) = &line.deed {
            let next = self.sent.get_mut(&(other, of)).and_then(|queue| queue.pop_front());
            if next != Some((*n, message)) {
                return Some("prefix");
            }
        }
        match &line.deed {
            Deed::Learnt(other) | Deed::Closed(other) | Deed::Sent(other, ..) | Deed::Took(other, ..) | Deed::Told(other, ..) | Deed::Got(other, ..) => {
                if self.closed.contains(&(of, other)) {
                    return Some("closed");
                }
            }
            _ => {}
        }
        match &line.deed {
            Deed::Watched(id, _, _) if !self.began.insert((of, *id)) => return Some("watch"),
            Deed::Terminated(id) if !self.began.contains(&(of, *id)) || !self.ended.insert((of, *id)) => return Some("watch"),
            _ => {}
        }
        if let Deed::Got(other, nonce, message) = &line.deed {
            let Some(nonce) = nonce else { return Some("ordinary") };
            let Some(queue) = self.told.get_mut(&(other, of, *nonce)) else { return Some("ordinary") };
            loop {
                match queue.pop_front() {
                    None => return Some("ordinary"),
                    Some(told) if told == message => break,
                    Some(_) => {}
                }
            }
        }
        match self.nodes.get(of) {
            Some(true) => return Some("stopped"),
            Some(false) if matches!(line.deed, Deed::Started) => return Some("stopped"),
            _ => {}
        }
        self.nodes.insert(of, matches!(line.deed, Deed::Stopped));
        match &line.deed {
            Deed::Sent(other, n, message) => self.sent.entry((of, other)).or_default().push_back((*n, message)),
            Deed::Told(other, dial, message) => self.told.entry((of, other, *dial)).or_default().push_back(message),
            Deed::Closed(other) => {
                self.closed.insert((of, other));
            }
            _ => {}
        }
        None
    }
}

fn main() {
    let mut text = Vec::new();
    std::io::stdin().read_to_end(&mut text).unwrap();
    let text = String::from_utf8(text).unwrap();
    let mut lines = Vec::new();
    for (k, told) in text.lines().enumerate() {
        match line(told) {
            Some(line) => lines.push(line),
            None => {
                println!("fault line {}", k + 1);
                std::process::exit(2);
            }
        }
    }
    let mut judge = Judge::default();
    for (k, line) in lines.iter().enumerate() {
        if let Some(law) = judge.judge(line) {
            println!("fault journal {} {law}", k + 1);
            std::process::exit(1);
        }
    }
    std::io::stdout().write_all(b"lawful\n").unwrap();
}
