//! What is leaked, damaged and in use in a core.

use crate::core::{word, Slab};
use crate::script::CLASS_COUNT;
use crate::tags::{first_broken, first_unconstructed, Finding, Shape};
use crate::view::{Buffer, View};
use std::collections::HashMap;

pub struct Classes {
    pub reached: Vec<Buffer>,
    pub leaked: Vec<Buffer>,
}

pub struct Line {
    pub address: u64,
    pub is_free: bool,
    pub cache: u32,
    pub finding: Finding,
}

pub struct Group<'a> {
    pub size: u64,
    pub stack: &'a [u64],
    pub count: u64,
    pub total: u64,
}

/// The buffers that a chain of pointers leads to from a root word, and the others.
pub fn classes(view: &View) -> Classes {
    let mut marks = vec![false; view.buffers.len()];
    let mut order = Vec::new();
    for word in &view.core.roots {
        mark(view, *word, &mut marks, &mut order);
    }
    let mut next = 0;
    while next < order.len() {
        let buffer = view.buffers[order[next]];
        let bytes = view.bytes_from(buffer.address);
        for index in 0..(buffer.size / 8) as usize {
            mark(view, word(bytes, 8 * index), &mut marks, &mut order);
        }
        next += 1;
    }
    let mut classes = Classes { reached: Vec::new(), leaked: Vec::new() };
    for (index, buffer) in view.buffers.iter().enumerate() {
        let class = if marks[index] { &mut classes.reached } else { &mut classes.leaked };
        class.push(*buffer);
    }
    classes
}

/// Marks the buffer that a word points into, where it was not marked before.
fn mark(view: &View, word: u64, marks: &mut [bool], order: &mut Vec<usize>) {
    if let Some(index) = view.buffer_at(word) {
        if !marks[index] {
            marks[index] = true;
            order.push(index);
        }
    }
}

/// A line for each chunk whose bytes are wrong.
pub fn findings(view: &View) -> Vec<Line> {
    let mut lines = Vec::new();
    if view.core.guards || view.core.caches.iter().any(|cache| cache.ctor.is_some()) {
        view.core.slabs.iter().for_each(|slab| add_findings(view, slab, &mut lines));
    }
    lines
}

/// The lines of a slab's chunks.
fn add_findings(view: &View, slab: &Slab, lines: &mut Vec<Line>) {
    let cache = &view.core.caches[slab.cache as usize];
    for index in 0..cache.rounds {
        let place = (slab.colour + index * cache.chunk) as usize;
        let bytes = &slab.bytes[place..place + cache.chunk as usize];
        let is_free = view.is_held(slab.first + index);
        if let Some(finding) = finding_of(view, slab, index, bytes, is_free) {
            lines.push(Line { address: slab.base + place as u64, is_free, cache: slab.cache, finding });
        }
    }
}

/// What is wrong with the bytes of a slab's chunk.
fn finding_of(view: &View, slab: &Slab, index: u32, bytes: &[u8], is_free: bool) -> Option<Finding> {
    let cache = &view.core.caches[slab.cache as usize];
    if view.core.guards {
        let class = (slab.cache < CLASS_COUNT).then_some(slab.cache);
        return first_broken(bytes, Shape { size: cache.size, chunk: slab.first + index, class }, is_free);
    }
    let ctor = cache.ctor.filter(|_| is_free);
    ctor.and_then(|byte| first_unconstructed(&bytes[..cache.size as usize], byte))
}

/// The groups of allocated chunks of one size and one stack.
pub fn groups<'a>(view: &View<'a>) -> Vec<Group<'a>> {
    let mut sums: HashMap<(u64, &[u64]), (u64, u64)> = HashMap::new();
    for buffer in &view.buffers {
        let Some(chunk) = buffer.chunk else { continue };
        if let Ok(index) = view.core.audits.binary_search_by_key(&chunk, |audit| audit.chunk) {
            let sum = sums.entry((buffer.size, &view.core.audits[index].stack)).or_default();
            *sum = (sum.0 + 1, sum.1 + buffer.size);
        }
    }
    let group = |((size, stack), (count, total))| Group { size, stack, count, total };
    let mut groups: Vec<_> = sums.into_iter().map(group).collect();
    groups.sort_by(|a, b| (b.total, a.size, a.stack).cmp(&(a.total, b.size, b.stack)));
    groups
}
