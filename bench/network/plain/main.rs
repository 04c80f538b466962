//! The network over bytes in plain Rust, with HashMaps: `replay`, its two options and `gen`, with the same output and status. Besides
//! `script N`, which writes the script that `gen N` plays.
#[path = "../../fields.rs"]
mod fields;
mod node;
mod peer;
mod script;
mod tables;
mod text;
mod watch;
mod wire;
mod world;

use script::Event;
use std::io::Read;
use std::process::exit;
use world::{Form, Stop, World};

fn fails(world: &mut World, status: i32, line: String) -> ! {
    world.told.put(&line);
    exit(if world.told.flush().is_ok() { status } else { 4 })
}

fn play(world: &mut World, events: Vec<(usize, Event)>) {
    for (k, event) in events {
        match world.apply(event) {
            Ok(()) => {}
            Err(Stop::NotAllowed(why)) => fails(world, 5, format!("fault line {k} not-allowed {why}\n")),
            Err(Stop::Limit(which)) => fails(world, 6, format!("fault line {k} limit {which}\n")),
            Err(Stop::Failed) => exit(4),
        }
    }
}

fn replay(form: Form) {
    let mut world = World::new(form);
    let mut text = Vec::new();
    if std::io::stdin().take(67_108_865).read_to_end(&mut text).is_err() {
        fails(&mut world, 3, "fault read\n".to_string());
    }
    if text.len() > 67_108_864 {
        fails(&mut world, 6, "fault limit bytes\n".to_string());
    }
    if script::lines(&text).count() > 1_000_000 {
        fails(&mut world, 6, "fault limit lines\n".to_string());
    }
    let events = script::read(&text).unwrap_or_else(|k| fails(&mut world, 2, format!("fault line {k}\n")));
    drop(text);
    if form == Form::Moments {
        world.told.put("journal 2\n");
    }
    play(&mut world, events);
    world.tell_counts();
    exit(if world.told.flush().is_ok() { 0 } else { 4 })
}

fn gen(n: u64) {
    let mut world = World::new(Form::Counts);
    let events = script::read(script::generate(n).as_bytes()).expect("the generator writes events");
    play(&mut world, events);
    let told = &world.told;
    let words = ["sent", "took", "told", "got", "closed", "terminated"];
    let counts: String = words.iter().zip(told.counts).map(|(word, count)| format!("{word} {count}\n")).collect();
    print!("lines {}\n{counts}", told.lines);
}

fn main() {
    let words: Vec<String> = std::env::args().skip(1).collect();
    let words: Vec<&str> = words.iter().map(String::as_str).collect();
    let number = |text: &str| text::number(text.as_bytes()).filter(|n| (1..=10_000).contains(n));
    match words.as_slice() {
        ["replay"] => replay(Form::Lines),
        ["replay", "--bytes"] => replay(Form::Bytes),
        ["replay", "--moments"] => replay(Form::Moments),
        ["gen", n] if number(n).is_some() => gen(number(n).unwrap_or(1)),
        ["script", n] if number(n).is_some() => print!("{}", script::generate(number(n).unwrap_or(1))),
        _ => fails(&mut World::new(Form::Lines), 2, "fault words\n".to_string()),
    }
}
