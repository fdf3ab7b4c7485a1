//! The slabs of all caches, and the free chunks that stand in them.

use crate::magazines::Round;
use crate::sizes::Geometry;

const BITS: u32 = 64;

pub struct Slab {
    pub base: u64,
    pub cache: u32,
    pub colour: u32,
    pub first: u32,
    pub live: u32,
    /// The chunks that stand in the slab's list, a bit each.
    free: Vec<u64>,
    /// For each chunk 1 and the number of the last act on it, or 0.
    pub acts: Vec<u32>,
}

/// The slabs of one cache, by the numbers of their chunks.
#[derive(Default)]
pub struct Listed {
    pub slabs: Vec<u32>,
    /// No slab before this one has a chunk in its list.
    open: usize,
}

#[derive(Default)]
pub struct Slabs {
    all: Vec<Slab>,
    unused: Vec<u32>,
    pub next_chunk: u32,
}

impl Slab {
    /// The chunks in the list, by rising number.
    pub fn listed(&self) -> impl Iterator<Item = u32> + '_ {
        let words = (0..).zip(&self.free);
        words.flat_map(move |(word, bits)| {
            let set = (0..BITS).filter(move |bit| bits >> bit & 1 == 1);
            set.map(move |bit| self.first + BITS * word + bit)
        })
    }

    /// Takes the lowest chunk of the list.
    fn take_lowest(&mut self, geometry: &Geometry) -> Option<Round> {
        let word = self.free.iter().position(|bits| *bits != 0)?;
        let bits = &mut self.free[word];
        let index = BITS * word as u32 + bits.trailing_zeros();
        *bits &= *bits - 1;
        Some(Round { chunk: self.first + index, address: self.address(index, geometry) as u32 })
    }

    /// Puts a chunk into the list.
    fn list(&mut self, chunk: u32) {
        let index = chunk - self.first;
        self.free[(index / BITS) as usize] |= 1 << (index % BITS);
    }

    /// Where a chunk of the slab begins.
    pub fn address(&self, index: u32, geometry: &Geometry) -> u64 {
        self.base + u64::from(self.colour + index * geometry.chunk)
    }

    /// Which chunk begins at an address.
    pub fn index_at(&self, address: u64, geometry: &Geometry) -> u32 {
        ((address - self.base) as u32 - self.colour) / geometry.chunk
    }
}

impl Slabs {
    /// The slab of a number.
    pub fn get(&mut self, slab: u32) -> &mut Slab {
        &mut self.all[slab as usize]
    }

    /// The slab of a number, to look at.
    pub fn at(&self, slab: u32) -> &Slab {
        &self.all[slab as usize]
    }

    /// The number that the next slab gets.
    pub fn next(&self) -> u32 {
        self.unused.last().copied().unwrap_or(self.all.len() as u32)
    }

    /// Makes a slab whose chunks all stand in its list.
    pub fn add(&mut self, listed: &mut Listed, place: (u64, u32, u32), geometry: &Geometry, has_acts: bool) {
        let (base, cache, colour) = place;
        let rounds = geometry.rounds;
        let mut free = vec![u64::MAX; rounds.div_ceil(BITS) as usize];
        if rounds % BITS != 0 {
            *free.last_mut().unwrap() = (1 << (rounds % BITS)) - 1;
        }
        let acts = if has_acts { vec![0; rounds as usize] } else { Vec::new() };
        let slab = Slab { base, cache, colour, first: self.next_chunk, live: 0, free, acts };
        self.next_chunk += rounds;
        listed.slabs.push(self.next());
        match self.unused.pop() {
            Some(unused) => self.all[unused as usize] = slab,
            None => self.all.push(slab),
        }
    }

    /// Takes the chunk with the lowest number that stands in a list.
    pub fn take(&mut self, listed: &mut Listed, geometry: &Geometry) -> Option<Round> {
        while let Some(slab) = listed.slabs.get(listed.open) {
            if let Some(round) = self.all[*slab as usize].take_lowest(geometry) {
                return Some(round);
            }
            listed.open += 1;
        }
        None
    }

    /// Puts a round back in its list.
    pub fn put(&mut self, listed: &mut Listed, round: Round) {
        let behind = listed.slabs.partition_point(|slab| self.all[*slab as usize].first <= round.chunk);
        listed.open = listed.open.min(behind - 1);
        self.get(listed.slabs[behind - 1]).list(round.chunk);
    }

    /// Drops the slabs without a live chunk, and gives their bases, which rise.
    pub fn drop_unused(&mut self, listed: &mut Listed) -> Vec<u64> {
        let mut bases = Vec::new();
        let Slabs { all, unused, .. } = self;
        listed.slabs.retain(|slab| {
            let is_used = all[*slab as usize].live > 0;
            if !is_used {
                bases.push(all[*slab as usize].base);
                unused.push(*slab);
            }
            is_used
        });
        listed.open = 0;
        bases.sort_unstable();
        bases
    }
}
