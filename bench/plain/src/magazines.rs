//! Where the free chunks of a cache stand besides its slabs: two magazines for each CPU, and a depot of eight.

use std::mem;

const DEPOT: usize = 8;

/// A free chunk that a place holds.
#[derive(Clone, Copy)]
pub struct Round {
    pub chunk: u32,
    pub address: u32,
}

pub type Magazine = Vec<Round>;

#[derive(Default)]
pub struct Cpu {
    pub loaded: Magazine,
    pub previous: Magazine,
}

pub struct Magazines {
    size: usize,
    pub cpus: Vec<Cpu>,
    /// The full magazines of the depot, the oldest first.
    pub full: Vec<Magazine>,
    /// Empty magazines whose memory was taken.
    empty: Vec<Magazine>,
}

impl Magazines {
    /// Empty magazines for so many CPUs.
    pub fn new(cpus: u32, size: u32) -> Magazines {
        let cpus = (0..cpus).map(|_| Cpu::default()).collect();
        Magazines { size: size as usize, cpus, full: Vec::new(), empty: Vec::new() }
    }

    /// A round of a CPU, by its magazines and the depot.
    pub fn take(&mut self, cpu: usize) -> Option<Round> {
        let Cpu { loaded, previous } = &mut self.cpus[cpu];
        if let Some(round) = loaded.pop() {
            return Some(round);
        }
        if previous.is_empty() {
            let full = self.full.pop()?;
            self.empty.push(mem::replace(previous, full));
        }
        mem::swap(loaded, previous);
        loaded.pop()
    }

    /// The first round that any CPU has.
    pub fn take_any(&mut self) -> Option<Round> {
        self.cpus.iter_mut().find_map(|cpu| cpu.loaded.pop().or_else(|| cpu.previous.pop()))
    }

    /// Puts a round on a CPU, or hands it back where neither its magazines nor the depot have room.
    pub fn put(&mut self, cpu: usize, round: Round) -> Result<(), Round> {
        let Cpu { loaded, previous } = &mut self.cpus[cpu];
        if loaded.len() == self.size {
            if previous.len() == self.size {
                if self.full.len() == DEPOT {
                    return Err(round);
                }
                let empty = self.empty.pop().unwrap_or_default();
                self.full.push(mem::replace(previous, empty));
            }
            mem::swap(loaded, previous);
        }
        loaded.push(round);
        Ok(())
    }

    /// Empties every magazine, and tells each round.
    pub fn drain(&mut self, mut tell: impl FnMut(Round)) {
        for cpu in &mut self.cpus {
            cpu.loaded.drain(..).chain(cpu.previous.drain(..)).for_each(&mut tell);
        }
        while let Some(mut magazine) = self.full.pop() {
            magazine.drain(..).for_each(&mut tell);
            self.empty.push(magazine);
        }
    }
}
