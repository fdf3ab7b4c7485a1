//! The core that a run leaves, as bytes.

use crate::heap::Heap;
use crate::journal::Act;
use crate::magazines::Magazine;
use crate::memory::Owner;
use crate::slabs::Slab;

const MAGIC: &[u8; 8] = b"UMEMCORE";
const NAME_BYTES: usize = 32;
/// Stands for no constructor byte.
const NO_CTOR: u32 = 256;

/// A large buffer: its base, its size, its bytes.
type Large<'a> = (u64, u32, &'a [u8]);

/// What stands in the arena, by rising base.
struct Standing<'a> {
    slabs: Vec<&'a Slab>,
    large: Vec<Large<'a>>,
    pages: Vec<&'a [u8]>,
}

struct Out {
    bytes: Vec<u8>,
}

impl Out {
    /// A number in four bytes.
    fn put(&mut self, number: u32) {
        self.bytes.extend_from_slice(&number.to_le_bytes());
    }

    /// Numbers in four bytes each.
    fn put_all(&mut self, numbers: &[u32]) {
        numbers.iter().for_each(|number| self.put(*number));
    }

    /// A number in eight bytes.
    fn put_long(&mut self, number: u64) {
        self.bytes.extend_from_slice(&number.to_le_bytes());
    }

    /// How many items there are.
    fn put_count<T>(&mut self, items: &[T]) {
        self.put(items.len() as u32);
    }

    /// The chunks of a magazine, the oldest round first.
    fn put_rounds(&mut self, magazine: &Magazine) {
        magazine.iter().for_each(|round| self.put(round.chunk));
    }

    /// The frames of a call, with their count before them.
    fn put_stack(&mut self, stack: &[u64]) {
        self.put_count(stack);
        stack.iter().for_each(|frame| self.put_long(*frame));
    }
}

/// The bytes of the core of a heap.
pub fn write_core(heap: &Heap) -> Vec<u8> {
    let standing = standing_of(heap);
    let audits = audits_of(heap, &standing);
    let bytes: usize = standing.pages.iter().map(|pages| pages.len()).sum();
    let mut out = Out { bytes: Vec::with_capacity(bytes + bytes / 4) };
    put_header(&mut out, heap, &standing, audits.len());
    out.bytes.extend_from_slice(&heap.memory.roots);
    put_caches(&mut out, heap);
    put_slabs(&mut out, &standing);
    put_places(&mut out, heap);
    put_audits(&mut out, &audits);
    put_logs(&mut out, heap);
    standing.pages.iter().for_each(|pages| out.bytes.extend_from_slice(pages));
    out.bytes
}

/// The slabs and the large buffers of a heap, by rising base.
fn standing_of<'a>(heap: &'a Heap) -> Standing<'a> {
    let mut standing = Standing { slabs: Vec::new(), large: Vec::new(), pages: Vec::new() };
    for (base, owner, bytes) in heap.memory.taken() {
        match owner {
            Owner::Slab(slab) => standing.slabs.push(heap.slabs.at(slab)),
            _ => standing.large.push((base, heap.live.size(base).unwrap(), bytes)),
        }
        standing.pages.push(bytes);
    }
    standing
}

/// The last transaction of each chunk that has one, by rising chunk.
fn audits_of<'a, 'b>(heap: &'b Heap<'a>, standing: &Standing) -> Vec<&'b Act<'a>> {
    let mut slabs = standing.slabs.clone();
    slabs.sort_by_key(|slab| slab.first);
    let acts = slabs.iter().flat_map(|slab| slab.acts.iter());
    acts.filter(|act| **act != 0).map(|act| &heap.journal.acts[*act as usize - 1]).collect()
}

/// The numbers at the front.
fn put_header(out: &mut Out, heap: &Heap, standing: &Standing, audits: usize) {
    let Heap { script, options, journal, .. } = heap;
    out.bytes.extend_from_slice(MAGIC);
    out.put_all(&[script.version, options.flags(), options.frames, options.contents, script.cpus]);
    out.put_count(&heap.caches);
    out.put_count(&standing.slabs);
    out.put_count(&standing.large);
    out.put(audits as u32);
    out.put(journal.most_acts);
    out.put_count(journal.transactions());
    out.put(journal.most_fails);
    out.put_count(journal.fails());
    out.put(heap.slabs.next_chunk);
    out.put_long(heap.transcript.entries);
    if script.version != 1 {
        out.put_all(&[script.threads, journal.most_saved, journal.saved.len() as u32]);
    }
}

/// The caches with their quantities.
fn put_caches(out: &mut Out, heap: &Heap) {
    for cache in &heap.caches {
        out.bytes.extend_from_slice(&cache.name);
        out.bytes.resize(out.bytes.len() + NAME_BYTES - cache.name.len(), 0);
        out.put_all(&[cache.size, cache.align, cache.grows]);
        if heap.script.version != 1 {
            out.put(cache.ctor.map_or(NO_CTOR, u32::from));
        }
    }
}

/// The slabs with their lists, and the large buffers.
fn put_slabs(out: &mut Out, standing: &Standing) {
    for slab in &standing.slabs {
        let listed: Vec<u32> = slab.listed().collect();
        out.put_long(slab.base);
        out.put_all(&[slab.cache, slab.colour, slab.first, listed.len() as u32]);
        out.put_all(&listed);
    }
    for (base, size, _) in &standing.large {
        out.put_long(*base);
        out.put_long(u64::from(*size));
    }
}

/// The magazines and the depots.
fn put_places(out: &mut Out, heap: &Heap) {
    for cpu in 0..heap.script.cpus as usize {
        for cache in &heap.caches {
            let places = &cache.magazines.cpus[cpu];
            for magazine in [&places.loaded, &places.previous] {
                out.put_count(magazine);
                out.put_rounds(magazine);
            }
        }
    }
    for cache in &heap.caches {
        out.put_count(&cache.magazines.full);
        cache.magazines.full.iter().for_each(|magazine| out.put_rounds(magazine));
    }
}

/// The audits.
fn put_audits(out: &mut Out, audits: &[&Act]) {
    for act in audits {
        out.put_all(&[act.chunk, act.thread]);
        out.put_long(act.time);
        out.put_stack(act.stack);
    }
}

/// The transactions, the fails and the saved items.
fn put_logs(out: &mut Out, heap: &Heap) {
    for act in heap.journal.transactions() {
        out.put_all(&[act.kind, act.cpu, act.thread, act.chunk]);
        out.put_long(act.address);
        out.put_long(act.time);
        out.put_stack(act.stack);
    }
    for fail in heap.journal.fails() {
        out.put_all(&[fail.thread, fail.cache]);
        out.put_long(fail.size);
        out.put_long(fail.time);
    }
    for saved in &heap.journal.saved {
        out.put_long(saved.time);
        out.put(saved.chunk);
        out.put_count(&saved.bytes);
        out.bytes.extend_from_slice(&saved.bytes);
    }
}
