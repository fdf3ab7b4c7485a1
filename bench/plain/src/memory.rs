//! The bytes of a run: the root pages and the arena, whose pages belong to slabs, to large buffers or to nobody.

use crate::script::OWN_SLOTS;
use crate::sizes::PAGE;

pub const ROOT_BASE: u64 = 0x1000;
pub const ARENA_BASE: u64 = 0x10_0000;
const PAGE_SLOTS: usize = 512;

#[derive(Clone, Copy, PartialEq)]
pub enum Owner {
    Nobody,
    Slab(u32),
    Large,
}

pub struct Memory {
    pub roots: Vec<u8>,
    arena: Vec<u8>,
    owners: Vec<Owner>,
    /// For the first page of a taken run its pages.
    runs: Vec<u32>,
    /// No page below is free.
    lowest: usize,
    /// No page from here on was ever taken.
    untouched: usize,
}

impl Memory {
    /// Zeros in so many root pages, and an arena of so many free pages.
    pub fn new(root_pages: usize, pages: usize) -> Memory {
        Memory {
            roots: vec![0; root_pages * PAGE],
            arena: vec![0; pages * PAGE],
            owners: vec![Owner::Nobody; pages],
            runs: vec![0; pages],
            lowest: 0,
            untouched: 0,
        }
    }

    /// Takes the lowest free run of so many pages, which then hold zeros.
    pub fn take(&mut self, pages: usize, owner: Owner) -> Option<u64> {
        let first = self.lowest_run(pages)?;
        let end = first + pages;
        let touched = self.untouched.clamp(first, end);
        self.arena[first * PAGE..touched * PAGE].fill(0);
        self.untouched = self.untouched.max(end);
        self.owners[first..end].fill(owner);
        self.runs[first] = pages as u32;
        if first == self.lowest {
            self.lowest = end;
        }
        Some(ARENA_BASE + (first * PAGE) as u64)
    }

    /// The first page of the lowest free run.
    fn lowest_run(&self, pages: usize) -> Option<usize> {
        let (mut first, mut at) = (self.lowest, self.lowest);
        while at < self.owners.len() {
            if self.owners[at] == Owner::Nobody {
                at += 1;
                if at - first == pages {
                    return Some(first);
                }
            } else {
                at += self.runs[at] as usize;
                first = at;
            }
        }
        None
    }

    /// Gives back the run that begins there.
    pub fn give_back(&mut self, base: u64) {
        let first = page_of(base);
        let pages = std::mem::take(&mut self.runs[first]) as usize;
        self.owners[first..first + pages].fill(Owner::Nobody);
        self.lowest = self.lowest.min(first);
    }

    /// Whose page an address of the arena stands in.
    pub fn owner(&self, address: u64) -> Owner {
        self.owners[page_of(address)]
    }

    /// The taken runs by rising base, each with its owner and its bytes.
    pub fn taken(&self) -> impl Iterator<Item = (u64, Owner, &[u8])> {
        let firsts = (0..self.runs.len()).filter(|first| self.runs[*first] != 0);
        firsts.map(|first| {
            let bytes = &self.arena[first * PAGE..(first + self.runs[first] as usize) * PAGE];
            (ARENA_BASE + (first * PAGE) as u64, self.owners[first], bytes)
        })
    }

    /// The bytes of a mapped range of the arena.
    pub fn bytes(&mut self, address: u64, length: usize) -> &mut [u8] {
        let from = (address - ARENA_BASE) as usize;
        &mut self.arena[from..from + length]
    }

    /// The bytes of a range of any addresses, where all of them are mapped.
    pub fn range(&mut self, address: u64, length: usize) -> Option<&mut [u8]> {
        if let Some(from) = place_in(address, ROOT_BASE, self.roots.len(), length) {
            return Some(&mut self.roots[from..from + length]);
        }
        let from = place_in(address, ARENA_BASE, self.arena.len(), length)?;
        let are_mapped = [from, from + length - 1].iter().all(|at| self.owners[at / PAGE] != Owner::Nobody);
        if are_mapped { Some(&mut self.arena[from..from + length]) } else { None }
    }

    /// The word of a slot of a thread.
    pub fn slot(&self, thread: u32, slot: u32) -> u64 {
        let at = place_of(thread, slot);
        u64::from_le_bytes(self.roots[at..at + 8].try_into().unwrap())
    }

    /// Gives a slot of a thread a word.
    pub fn set_slot(&mut self, thread: u32, slot: u32, value: u64) {
        let at = place_of(thread, slot);
        self.roots[at..at + 8].copy_from_slice(&value.to_le_bytes());
    }
}

/// The number of the page of an address.
fn page_of(address: u64) -> usize {
    (address - ARENA_BASE) as usize / PAGE
}

/// Where a slot stands in the root pages.
fn place_of(thread: u32, slot: u32) -> usize {
    let own = slot >= OWN_SLOTS;
    let words = if own { PAGE_SLOTS * (thread as usize + 1) + (slot - OWN_SLOTS) as usize } else { slot as usize };
    8 * words
}

/// Where a range stands in so many bytes from a base on.
fn place_in(address: u64, base: u64, bytes: usize, length: usize) -> Option<usize> {
    let from = address.checked_sub(base)?;
    let end = from.checked_add(length as u64)?;
    (end <= bytes as u64).then_some(from as usize)
}
