//! The buffers of a core by address, and what stands at an address.

use crate::core::{Core, Slab};
use crate::memory::ROOT_BASE;
use crate::sizes::PAGE;
use std::cmp::Ordering;

#[derive(Clone, Copy)]
pub struct Buffer {
    pub address: u64,
    pub size: u64,
    pub cache: Option<u32>,
    pub chunk: Option<u32>,
}

pub struct View<'a> {
    pub core: &'a Core<'a>,
    pub buffers: Vec<Buffer>,
    pub free: Vec<Buffer>,
    #[allow(dead_code)]
    chunks: Vec<u32>,
    held: Vec<u32>,
}

/// What an address stands in.
pub enum Hit {
    Chunk { slab: usize, index: u32, offset: u64 },
    Large { index: usize, offset: u64 },
    Slab { slab: usize },
    Root { thread: Option<u64>, word: u64 },
}

impl<'a> View<'a> {
    /// The view of a core.
    pub fn new(core: &'a Core<'a>) -> View<'a> {
        let mut held = core.held.clone();
        held.sort_unstable();
        let (mut buffers, mut free, mut chunks) = (Vec::new(), Vec::new(), Vec::new());
        for slab in &core.slabs {
            let cache = &core.caches[slab.cache as usize];
            for index in 0..cache.rounds {
                let chunk = slab.first + index;
                chunks.push(chunk);
                let buffer = Buffer {
                    address: slab.base + u64::from(slab.colour + index * cache.chunk),
                    size: u64::from(cache.size),
                    cache: Some(slab.cache),
                    chunk: Some(chunk),
                };
                if held.binary_search(&chunk).is_ok() {
                    free.push(buffer);
                } else {
                    buffers.push(buffer);
                }
            }
        }
        for item in &core.large {
            buffers.push(Buffer { address: item.base, size: item.size, cache: None, chunk: None });
        }
        chunks.sort_unstable();
        buffers.sort_by_key(|buffer| buffer.address);
        free.sort_by_key(|buffer| buffer.address);
        View { core, buffers, free, chunks, held }
    }

    /// Tells whether a chunk stands in a list or a magazine.
    pub fn is_held(&self, chunk: u32) -> bool {
        self.held.binary_search(&chunk).is_ok()
    }

    /// The index of the slab that has the address.
    fn slab_at(&self, address: u64) -> Option<usize> {
        let index = self.core.slabs.partition_point(|slab| slab.base <= address).checked_sub(1)?;
        let slab = &self.core.slabs[index];
        (address - slab.base < slab.bytes.len() as u64).then_some(index)
    }

    /// The index of the chunk of a slab in whose buffer an address stands, and the offset there.
    fn place_in(&self, slab: &Slab, address: u64) -> Option<(u64, u64)> {
        let cache = &self.core.caches[slab.cache as usize];
        let place = (address - slab.base).checked_sub(u64::from(slab.colour))?;
        let (index, offset) = (place / u64::from(cache.chunk), place % u64::from(cache.chunk));
        (index < u64::from(cache.rounds) && offset < u64::from(cache.size)).then_some((index, offset))
    }

    /// Tells whether the address stands in a chunk's buffer.
    pub fn find(&self, address: u64) -> bool {
        let Some(index) = self.slab_at(address) else { return false };
        self.place_in(&self.core.slabs[index], address).is_some()
    }

    /// What the address stands in, if in anything.
    pub fn hit(&self, address: u64) -> Option<Hit> {
        if let Some(slab) = self.slab_at(address) {
            return Some(match self.place_in(&self.core.slabs[slab], address) {
                Some((index, offset)) => Hit::Chunk { slab, index: index as u32, offset },
                None => Hit::Slab { slab },
            });
        }
        if let Some(index) = self.core.large.partition_point(|item| item.base <= address).checked_sub(1) {
            let item = &self.core.large[index];
            if address - item.base < item.bytes.len() as u64 {
                return Some(Hit::Large { index, offset: address - item.base });
            }
        }
        let place = address.checked_sub(ROOT_BASE).filter(|place| place / 8 < self.core.roots.len() as u64)?;
        let page = PAGE as u64;
        Some(Hit::Root { thread: (place / page).checked_sub(1), word: place % page / 8 })
    }

    /// The bytes from an address of the arena to the end of its slab or its large buffer.
    pub fn bytes_from(&self, address: u64) -> &'a [u8] {
        if let Some(index) = self.slab_at(address) {
            let slab = &self.core.slabs[index];
            return &slab.bytes[(address - slab.base) as usize..];
        }
        let index = self.core.large.partition_point(|item| item.base <= address) - 1;
        let item = &self.core.large[index];
        &item.bytes[(address - item.base) as usize..]
    }

    /// The index of the allocated buffer that has the address.
    pub fn buffer_at(&self, address: u64) -> Option<usize> {
        let has = |buffer: &Buffer| {
            if address < buffer.address {
                Ordering::Greater
            } else if address < buffer.address + buffer.size {
                Ordering::Equal
            } else {
                Ordering::Less
            }
        };
        self.buffers.binary_search_by(has).ok()
    }
}
