//! What the scripts of `bench/` compare with: the same work, done as plainly as can be. It trusts what it is given.
//!
//! `plain WORD < CORE` asks a core what the word says, and `plain read_script < SCRIPT` reads a script, once or, with
//! `_ten` behind the word, ten times. `plain run SCRIPT [--core FILE] [--debug LIST] [--logging LIST]` and
//! `plain mdb CORE < COMMANDS` do what `umem` does.

mod answers;
mod commands;
mod core;
mod heap;
mod journal;
mod live;
mod magazines;
mod memory;
mod options;
mod script;
mod sizes;
mod slabs;
mod tags;
mod text;
mod transcript;
mod view;
mod views;
mod write_core;

use heap::Heap;
use std::io::{self, Read, Write};
use std::process::ExitCode;
use view::View;

const TIMES: u32 = 10;
const LOOK_UPS: u64 = 1_000_000;

/// Does what the first word says.
fn main() -> io::Result<ExitCode> {
    let words: Vec<String> = std::env::args().skip(1).collect();
    match words.first().map(String::as_str) {
        Some("run") => run(&words[1..]),
        Some("mdb") => mdb(&words[1]),
        Some(word) => time(word),
        None => Ok(ExitCode::FAILURE),
    }
}

/// The word behind an option's name.
fn option<'a>(words: &'a [String], name: &str) -> Option<&'a str> {
    let at = words.iter().position(|word| word == name)?;
    Some(&words[at + 1])
}

/// Runs a script, prints its transcript, and leaves a core where one is asked for.
fn run(words: &[String]) -> io::Result<ExitCode> {
    let bytes = std::fs::read(&words[0])?;
    let script = script::read_script(&bytes);
    let debug = options::read_debug(option(words, "--debug").unwrap_or_default());
    let logging = options::read_logging(option(words, "--logging").unwrap_or_default());
    let mut heap = Heap::new(&script, &debug, &logging);
    heap.run();
    io::stdout().lock().write_all(&heap.transcript.out)?;
    if let Some(file) = option(words, "--core") {
        std::fs::write(file, write_core::write_core(&heap))?;
    }
    Ok(ExitCode::SUCCESS)
}

/// Answers the commands of standard input over a core, and tells which lines are none.
fn mdb(file: &str) -> io::Result<ExitCode> {
    let bytes = std::fs::read(file)?;
    let core = core::read(&bytes);
    let view = View::new(&core);
    let mut input = Vec::new();
    io::stdin().read_to_end(&mut input)?;
    let (mut out, mut refused) = (Vec::new(), String::new());
    for (number, line) in (1..).zip(input.split(|byte| *byte == b'\n')) {
        match commands::read_command(&String::from_utf8_lossy(line)) {
            Ok(None) => {}
            Ok(Some(command)) => answers::answer(&view, command, &mut out),
            Err(fault) => refused += &format!("umem: line {number}: {fault}\n"),
        }
    }
    io::stdout().lock().write_all(&out)?;
    io::stderr().write_all(refused.as_bytes())?;
    Ok(ExitCode::from(u8::from(!refused.is_empty())))
}

/// Does what a word says to standard input, once or ten times, and prints how much came of it.
fn time(word: &str) -> io::Result<ExitCode> {
    let (work, times) = match word.strip_suffix("_ten") {
        Some(work) => (work, TIMES),
        None => (word, 1),
    };
    let mut bytes = Vec::new();
    io::stdin().read_to_end(&mut bytes)?;
    let done = if work == "read_script" { read_often(&bytes, times) } else { ask_often(&bytes, work, times) };
    println!("{word} {done}");
    Ok(ExitCode::SUCCESS)
}

/// Reads a script so many times, and tells how many steps it has.
fn read_often(bytes: &[u8], times: u32) -> usize {
    let mut steps = 0;
    for _ in 0..times {
        steps = script::read_script(bytes).phases.iter().map(Vec::len).sum();
    }
    steps
}

/// Asks a core so many times.
fn ask_often(bytes: &[u8], work: &str, times: u32) -> usize {
    let core = core::read(bytes);
    let view = View::new(&core);
    let mut done = 0;
    for _ in 0..times {
        done = match work {
            "buffers" => View::new(&core).buffers.len(),
            "find" => found(&view),
            "classes" => views::classes(&view).reached.len(),
            "findings" => views::findings(&view).len(),
            "groups" => views::groups(&view).len(),
            _ => 0,
        };
    }
    done
}

/// How many of a million addresses of the arena stand in a chunk.
fn found(view: &View) -> usize {
    (0..LOOK_UPS).filter(|index| view.find(memory::ARENA_BASE + index * 16_661 % (4096 * 4096))).count()
}
