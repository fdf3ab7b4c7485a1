//! Scripts of both versions, read without a look at their rules.

use crate::text::{hex, hex_digit};
use std::collections::HashMap;

/// Slots from here on are a thread's own.
pub const OWN_SLOTS: u32 = 512;
pub const CLASS_COUNT: u32 = 32;

pub struct CacheDef {
    pub name: Vec<u8>,
    pub size: u32,
    pub align: u32,
    pub ctor: Option<u8>,
}

#[derive(Clone, Copy)]
pub struct Bytes {
    length: u8,
    bytes: [u8; 16],
}

pub enum Op {
    Alloc { slot: u32, size: u32 },
    Zalloc { slot: u32, size: u32 },
    Free { slot: u32, size: u32 },
    CacheAlloc { slot: u32, cache: u32 },
    CacheFree { slot: u32, cache: u32 },
    Copy { to: u32, from: u32 },
    Clear { slot: u32 },
    Store { slot: u32, offset: u32, bytes: Bytes },
    Link { slot: u32, offset: u32, value: u32 },
    Load { to: u32, slot: u32, offset: u32 },
    Reap,
}

pub struct Step {
    pub thread: u32,
    pub op: Op,
    pub stack: Vec<u64>,
}

pub struct Script {
    pub version: u32,
    pub cpus: u32,
    pub threads: u32,
    pub caches: Vec<CacheDef>,
    pub phases: Vec<Vec<Step>>,
}

impl Bytes {
    /// The bytes that stand there.
    pub fn as_slice(&self) -> &[u8] {
        &self.bytes[..usize::from(self.length)]
    }

    /// The bytes of hexadecimal digits.
    fn read(digits: &[u8]) -> Bytes {
        let mut read = Bytes { length: (digits.len() / 2) as u8, bytes: [0; 16] };
        for (byte, pair) in read.bytes.iter_mut().zip(digits.chunks_exact(2)) {
            *byte = byte_of(pair);
        }
        read
    }
}

/// The byte of two hexadecimal digits.
fn byte_of(pair: &[u8]) -> u8 {
    hex_digit(pair[0]).unwrap() << 4 | hex_digit(pair[1]).unwrap()
}

/// A place in a script's text.
struct Words<'a> {
    text: &'a [u8],
    at: usize,
}

impl<'a> Words<'a> {
    /// The byte at the place, or a line end behind the text.
    fn byte(&self) -> u8 {
        self.text.get(self.at).copied().unwrap_or(b'\n')
    }

    /// Goes to the next word of the line, or to the line's end.
    fn skip_blanks(&mut self) {
        while self.byte() <= b' ' && self.byte() != b'\n' {
            self.at += 1;
        }
    }

    /// Goes to the next line, and tells whether there is one.
    fn next_line(&mut self) -> bool {
        while self.byte() != b'\n' {
            self.at += 1;
        }
        self.at += 1;
        self.at < self.text.len()
    }

    /// The next word of the line, which is empty where there is none.
    fn word(&mut self) -> &'a [u8] {
        self.skip_blanks();
        let from = self.at;
        while self.byte() > b' ' {
            self.at += 1;
        }
        &self.text[from..self.at]
    }

    /// The digits from the place on, in decimal.
    fn digits(&mut self) -> u32 {
        let mut number = 0;
        while self.byte() > b' ' {
            number = 10 * number + u32::from(self.byte() - b'0');
            self.at += 1;
        }
        number
    }

    /// A decimal number.
    fn number(&mut self) -> u32 {
        self.skip_blanks();
        self.digits()
    }

    /// The number of a slot.
    fn slot(&mut self) -> u32 {
        self.skip_blanks();
        let own = if self.byte() == b'%' { OWN_SLOTS } else { 0 };
        self.at += 1;
        own + self.digits()
    }

    /// The frames of a step, where it has some.
    fn stack(&mut self) -> Vec<u64> {
        if self.word().is_empty() {
            return Vec::new();
        }
        let frames = self.word();
        let mut stack = Vec::with_capacity(1 + frames.iter().filter(|byte| **byte == b',').count());
        stack.extend(frames.split(|byte| *byte == b',').map(|frame| hex(frame).unwrap()));
        stack
    }
}

/// The declared caches by name.
type Names<'a> = HashMap<&'a [u8], u32>;

/// A script by its bytes.
pub fn read_script(text: &[u8]) -> Script {
    let mut script = Script { version: 0, cpus: 0, threads: 0, caches: Vec::new(), phases: Vec::new() };
    let (mut words, mut names) = (Words { text, at: 0 }, Names::new());
    loop {
        read_line(&mut words, &mut script, &mut names);
        if !words.next_line() {
            return script;
        }
    }
}

/// The words of a line.
fn read_line<'a>(words: &mut Words<'a>, script: &mut Script, names: &mut Names<'a>) {
    words.skip_blanks();
    match words.byte() {
        b'\n' | b'#' => {}
        b'0'..=b'9' => {
            let thread = words.digits();
            let step = Step { thread, op: read_op(words, names), stack: words.stack() };
            script.phases.last_mut().unwrap().push(step);
        }
        _ => match words.word() {
            b"umem" => read_header(words, script),
            b"phase" => script.phases.push(Vec::new()),
            _ => {
                let (name, def) = read_cache(words);
                names.insert(name, CLASS_COUNT + script.caches.len() as u32);
                script.caches.push(def);
            }
        },
    }
}

/// The words of a header behind its first.
fn read_header(words: &mut Words, script: &mut Script) {
    script.version = words.number();
    words.word();
    script.cpus = words.number();
    words.word();
    script.threads = words.number();
}

/// The words of a cache's line behind its first.
fn read_cache<'a>(words: &mut Words<'a>) -> (&'a [u8], CacheDef) {
    let name = words.word();
    let (size, align) = (words.number(), words.number());
    let ctor = words.word();
    let ctor = (!ctor.is_empty()).then(|| byte_of(ctor));
    (name, CacheDef { name: name.to_vec(), size, align, ctor })
}

/// The operation of a step and its arguments.
fn read_op(words: &mut Words, names: &Names) -> Op {
    match words.word() {
        b"alloc" => Op::Alloc { slot: words.slot(), size: words.number() },
        b"zalloc" => Op::Zalloc { slot: words.slot(), size: words.number() },
        b"free" => Op::Free { slot: words.slot(), size: words.number() },
        b"cache_alloc" => Op::CacheAlloc { slot: words.slot(), cache: names[words.word()] },
        b"cache_free" => Op::CacheFree { slot: words.slot(), cache: names[words.word()] },
        b"copy" => Op::Copy { to: words.slot(), from: words.slot() },
        b"clear" => Op::Clear { slot: words.slot() },
        b"store" => Op::Store { slot: words.slot(), offset: words.number(), bytes: Bytes::read(words.word()) },
        b"link" => Op::Link { slot: words.slot(), offset: words.number(), value: words.slot() },
        b"load" => Op::Load { to: words.slot(), slot: words.slot(), offset: words.number() },
        b"reap" => Op::Reap,
        _ => panic!("no operation"),
    }
}
