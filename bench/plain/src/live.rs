//! Which buffers live, and which addresses were ever handed out.

use crate::memory::ARENA_BASE;
use crate::sizes::PAGE;

/// Buffers begin at multiples of so many bytes.
const STEP: u64 = 8;
const WAS: u32 = 1;

/// What a free names: a size, or a cache.
pub struct Held {
    pub size: u32,
    pub cache: Option<u32>,
}

pub struct Live {
    /// For each address that may be handed out 0 where it never was, 1 where it was and nothing lives there, else 1 and
    /// the size that was asked for.
    states: Vec<u32>,
}

impl Live {
    /// Nothing lives in an arena of so many pages.
    pub fn new(pages: usize) -> Live {
        Live { states: vec![0; pages * PAGE / STEP as usize] }
    }

    /// Notes a buffer of so many bytes.
    pub fn allocated(&mut self, address: u64, size: u32) {
        self.states[place_of(address)] = WAS + size;
    }

    /// Notes that a buffer is no more.
    pub fn freed(&mut self, address: u64) {
        self.states[place_of(address)] = WAS;
    }

    /// The size of the buffer that lives at an address.
    pub fn size(&self, address: u64) -> Option<u32> {
        self.state(address).checked_sub(WAS).filter(|size| *size > 0)
    }

    /// Tells whether an address was ever handed out.
    pub fn was_ever(&self, address: u64) -> bool {
        self.state(address) > 0
    }

    /// What the table says of any address.
    fn state(&self, address: u64) -> u32 {
        if address < ARENA_BASE || address % STEP != 0 {
            return 0;
        }
        let place = usize::try_from((address - ARENA_BASE) / STEP).ok();
        place.and_then(|place| self.states.get(place)).copied().unwrap_or(0)
    }
}

/// Where an address stands in the table.
fn place_of(address: u64) -> usize {
    ((address - ARENA_BASE) / STEP) as usize
}
