//! What a run notes of its calls for a core: transactions, fails, and first bytes of freed buffers.

use crate::options::{Logging, Options};
use crate::script::Step;
use std::collections::VecDeque;

pub const ALLOCATION: u32 = 1;
pub const FREE: u32 = 2;

pub struct Act<'a> {
    pub kind: u32,
    pub cpu: u32,
    pub thread: u32,
    pub chunk: u32,
    pub address: u64,
    pub time: u64,
    pub stack: &'a [u64],
}

pub struct Fail {
    pub thread: u32,
    pub cache: u32,
    pub size: u64,
    pub time: u64,
}

pub struct Saved {
    pub time: u64,
    pub chunk: u32,
    pub bytes: Vec<u8>,
}

pub struct Journal<'a> {
    keeps_acts: bool,
    frames: usize,
    pub most_acts: u32,
    pub most_fails: u32,
    pub most_saved: u32,
    saved_bytes: usize,
    pub acts: Vec<Act<'a>>,
    fails: Vec<Fail>,
    /// The last items, no more than are kept.
    pub saved: VecDeque<Saved>,
}

impl<'a> Journal<'a> {
    /// A journal for what the options ask for.
    pub fn new(version: u32, options: &Options, logging: &Logging) -> Journal<'a> {
        Journal {
            keeps_acts: options.audit,
            frames: options.frames as usize,
            most_acts: logging.transactions(options),
            most_fails: logging.fails(),
            most_saved: if version == 1 { 0 } else { logging.saved(options) },
            saved_bytes: options.saved_bytes() as usize,
            acts: Vec::new(),
            fails: Vec::new(),
            saved: VecDeque::new(),
        }
    }

    /// Tells whether transactions are noted.
    pub fn keeps_acts(&self) -> bool {
        self.keeps_acts
    }

    /// Notes a transaction, and gives 1 and its number.
    pub fn note(&mut self, kind: u32, cpu: u32, step: &'a Step, chunk: u32, address: u64, time: u64) -> u32 {
        let stack = &step.stack[..step.stack.len().min(self.frames)];
        self.acts.push(Act { kind, cpu, thread: step.thread, chunk, address, time, stack });
        self.acts.len() as u32
    }

    /// Notes an allocation that found no space.
    pub fn fail(&mut self, thread: u32, cache: u32, size: u32, time: u64) {
        self.fails.push(Fail { thread, cache, size: u64::from(size), time });
    }

    /// Notes the first bytes of a buffer before it is freed.
    pub fn save(&mut self, time: u64, chunk: u32, buffer: &[u8]) {
        if self.most_saved == 0 {
            return;
        }
        let is_full = self.saved.len() == self.most_saved as usize;
        let mut bytes = if is_full { self.saved.pop_front().unwrap().bytes } else { Vec::new() };
        bytes.clear();
        bytes.extend_from_slice(&buffer[..buffer.len().min(self.saved_bytes)]);
        self.saved.push_back(Saved { time, chunk, bytes });
    }

    /// The transactions that the log has.
    pub fn transactions(&self) -> &[Act<'a>] {
        last(&self.acts, self.most_acts)
    }

    /// The fails that the log has.
    pub fn fails(&self) -> &[Fail] {
        last(&self.fails, self.most_fails)
    }
}

/// The last items of a list, at most so many.
fn last<T>(items: &[T], most: u32) -> &[T] {
    &items[items.len().saturating_sub(most as usize)..]
}
