//! A heap of one owner: what each call of a script does and is answered.

use crate::journal::{self, Journal};
use crate::live::{Held, Live};
use crate::magazines::{Magazines, Round};
use crate::memory::{Memory, Owner};
use crate::options::{Logging, Options};
use crate::script::{CacheDef, Op, Script, Step, CLASS_COUNT};
use crate::sizes::{class_of, geometry, Geometry, CLASSES, PAGE};
use crate::slabs::{Listed, Slabs};
use crate::tags::{first_broken, write_allocated, write_free, Finding, Shape};
use crate::transcript::Transcript;

const WORD: usize = 8;

pub struct Cache {
    pub size: u32,
    pub align: u32,
    pub ctor: Option<u8>,
    pub name: Vec<u8>,
    pub geometry: Geometry,
    pub grows: u32,
    pub listed: Listed,
    pub magazines: Magazines,
}

pub struct Heap<'a> {
    pub script: &'a Script,
    pub options: &'a Options,
    pub memory: Memory,
    pub caches: Vec<Cache>,
    pub slabs: Slabs,
    pub live: Live,
    pub journal: Journal<'a>,
    pub transcript: Transcript,
}

/// How a call is answered.
pub enum Reply {
    Ok,
    Null,
    NoSpace,
    At { address: u64, report: Option<Finding> },
    Dup,
    BadAddr,
    BadCache,
    BadSize,
    Redzone,
    Fault,
    Word(u64),
}

/// The size classes and the declared caches.
fn caches_of(script: &Script, guards: bool) -> Vec<Cache> {
    let make = |name: Vec<u8>, size, align, ctor| {
        let geometry = geometry(size, align, guards);
        let magazines = Magazines::new(script.cpus, geometry.magazine);
        Cache { size, align, ctor, name, geometry, grows: 0, listed: Listed::default(), magazines }
    };
    let classes = CLASSES.iter().map(|size| make(format!("umem_alloc_{size}").into_bytes(), *size, 8, None));
    let declared = |def: &CacheDef| make(def.name.clone(), def.size, def.align, def.ctor);
    classes.chain(script.caches.iter().map(declared)).collect()
}

impl<'a> Heap<'a> {
    /// A heap that no call was made of.
    pub fn new(script: &'a Script, options: &'a Options, logging: &Logging) -> Heap<'a> {
        let (pages, root_pages) = if script.version == 1 { (1024, 1) } else { (4096, 1 + script.threads as usize) };
        Heap {
            script,
            options,
            memory: Memory::new(root_pages, pages),
            caches: caches_of(script, options.guards),
            slabs: Slabs::default(),
            live: Live::new(pages),
            journal: Journal::new(script.version, options, logging),
            transcript: Transcript::new(script, options.guards),
        }
    }

    /// Makes all calls: phase by phase, and in a phase thread by thread.
    pub fn run(&mut self) {
        for phase in &self.script.phases {
            if self.script.threads == 1 {
                phase.iter().for_each(|step| self.perform(step));
                continue;
            }
            for thread in 0..self.script.threads {
                phase.iter().filter(|step| step.thread == thread).for_each(|step| self.perform(step));
            }
        }
        self.transcript.end();
    }

    /// Makes a call, and prints its entry.
    fn perform(&mut self, step: &'a Step) {
        let thread = step.thread;
        let reply = match &step.op {
            Op::Alloc { slot, size } => self.alloc(step, *slot, *size, false),
            Op::Zalloc { slot, size } => self.alloc(step, *slot, *size, true),
            Op::CacheAlloc { slot, cache } => {
                let size = self.caches[*cache as usize].size;
                self.alloc_from(step, *slot, *cache, size, false)
            }
            Op::Free { slot, size } => self.free(step, *slot, Held { size: *size, cache: None }),
            Op::CacheFree { slot, cache } => self.free(step, *slot, Held { size: 0, cache: Some(*cache) }),
            Op::Copy { to, from } => {
                let word = self.memory.slot(thread, *from);
                self.memory.set_slot(thread, *to, word);
                Reply::Ok
            }
            Op::Clear { slot } => {
                self.memory.set_slot(thread, *slot, 0);
                Reply::Ok
            }
            Op::Store { slot, offset, bytes } => self.store(thread, *slot, *offset, bytes.as_slice()),
            Op::Link { slot, offset, value } => {
                let word = self.memory.slot(thread, *value);
                self.store(thread, *slot, *offset, &word.to_le_bytes())
            }
            Op::Load { to, slot, offset } => self.load(thread, *to, *slot, *offset),
            Op::Reap => self.reap(thread),
        };
        self.transcript.call(step, &self.script.caches, &reply);
    }

    /// An allocation by size.
    fn alloc(&mut self, step: &'a Step, slot: u32, size: u32, zero: bool) -> Reply {
        if size == 0 {
            self.memory.set_slot(step.thread, slot, 0);
            return Reply::Null;
        }
        match class_of(size) {
            Some(class) => self.alloc_from(step, slot, class, size, zero),
            None => self.alloc_large(step.thread, slot, size),
        }
    }

    /// An allocation of whole pages.
    fn alloc_large(&mut self, thread: u32, slot: u32, size: u32) -> Reply {
        let base = self.memory.take((size as usize).div_ceil(PAGE), Owner::Large);
        self.memory.set_slot(thread, slot, base.unwrap_or(0));
        let Some(address) = base else { return Reply::NoSpace };
        self.live.allocated(address, size);
        Reply::At { address, report: None }
    }

    /// An allocation from a cache.
    fn alloc_from(&mut self, step: &'a Step, slot: u32, number: u32, requested: u32, zero: bool) -> Reply {
        let Some(round) = self.find_round(step.thread, number) else {
            let time = self.transcript.entries;
            self.journal.fail(step.thread, number, requested, time);
            self.memory.set_slot(step.thread, slot, 0);
            return Reply::NoSpace;
        };
        let address = u64::from(round.address);
        let report = self.hand_out(round, number, requested, zero);
        self.live.allocated(address, requested);
        let Owner::Slab(slab) = self.memory.owner(address) else { panic!("no slab") };
        self.slabs.get(slab).live += 1;
        self.note(journal::ALLOCATION, step, slab, round);
        self.memory.set_slot(step.thread, slot, address);
        Reply::At { address, report }
    }

    /// A free chunk of a cache, by the order in which its places are asked.
    fn find_round(&mut self, thread: u32, number: u32) -> Option<Round> {
        let cpu = (thread % self.script.cpus) as usize;
        let cache = &mut self.caches[number as usize];
        if let Some(round) = cache.magazines.take(cpu) {
            return Some(round);
        }
        if let Some(round) = self.slabs.take(&mut cache.listed, &cache.geometry) {
            return Some(round);
        }
        if self.grow(thread, number) {
            let cache = &mut self.caches[number as usize];
            return self.slabs.take(&mut cache.listed, &cache.geometry);
        }
        self.caches[number as usize].magazines.take_any()
    }

    /// Makes a slab for a cache, and tells whether there was room for it.
    fn grow(&mut self, thread: u32, number: u32) -> bool {
        let cache = &mut self.caches[number as usize];
        let geometry = cache.geometry;
        let id = self.slabs.next();
        let Some(base) = self.memory.take(geometry.pages as usize, Owner::Slab(id)) else { return false };
        let colour = cache.align * (cache.grows % (geometry.leftover / cache.align + 1));
        let first = self.slabs.next_chunk;
        self.slabs.add(&mut cache.listed, (base, number, colour), &geometry, self.journal.keeps_acts());
        cache.grows += 1;
        self.transcript.inner(thread, b"grow ", &cache.name, base);
        self.make_chunks(number, first, base + u64::from(colour));
        true
    }

    /// The bytes of the chunks of a new slab.
    fn make_chunks(&mut self, number: u32, first: u32, from: u64) {
        let Cache { size, ctor, geometry, .. } = &self.caches[number as usize];
        let bytes = self.memory.bytes(from, (geometry.rounds * geometry.chunk) as usize);
        for (chunk, bytes) in (first..).zip(bytes.chunks_exact_mut(geometry.chunk as usize)) {
            if self.options.guards {
                write_free(bytes, Shape { size: *size, chunk, class: None });
            } else if let Some(byte) = ctor {
                bytes[..*size as usize].fill(*byte);
            }
        }
    }

    /// The bytes that an allocation leaves in a chunk, and what was wrong with them before.
    fn hand_out(&mut self, round: Round, number: u32, requested: u32, zero: bool) -> Option<Finding> {
        let Cache { size, ctor, geometry, .. } = &self.caches[number as usize];
        let bytes = self.memory.bytes(u64::from(round.address), geometry.chunk as usize);
        if !self.options.guards {
            if zero {
                bytes[..requested as usize].fill(0);
            }
            return None;
        }
        let shape = shape_of(*size, number, round.chunk);
        let report = first_broken(bytes, shape, true);
        write_allocated(bytes, shape, requested, zero, *ctor);
        report
    }

    /// Notes a transaction, where they are wanted.
    fn note(&mut self, kind: u32, step: &'a Step, slab: u32, round: Round) {
        if !self.journal.keeps_acts() {
            return;
        }
        let (cpu, time) = (step.thread % self.script.cpus, self.transcript.entries);
        let act = self.journal.note(kind, cpu, step, round.chunk, u64::from(round.address), time);
        let slab = self.slabs.get(slab);
        let index = round.chunk - slab.first;
        slab.acts[index as usize] = act;
    }

    /// A free, which names a size or a cache.
    fn free(&mut self, step: &'a Step, slot: u32, named: Held) -> Reply {
        let address = self.memory.slot(step.thread, slot);
        if address == 0 {
            return Reply::Null;
        }
        let Some(size) = self.live.size(address) else {
            return if self.live.was_ever(address) { Reply::Dup } else { Reply::BadAddr };
        };
        let Owner::Slab(slab) = self.memory.owner(address) else {
            return self.free_large(step.thread, slot, address, size, named);
        };
        let number = self.slabs.at(slab).cache;
        match named.cache {
            Some(cache) if cache != number => return Reply::BadCache,
            None if number >= CLASS_COUNT => return Reply::BadCache,
            None if named.size != size => return Reply::BadSize,
            _ => {}
        }
        self.free_chunk(step, slot, slab, address)
    }

    /// A free of whole pages.
    fn free_large(&mut self, thread: u32, slot: u32, address: u64, size: u32, named: Held) -> Reply {
        if named.cache.is_some() {
            return Reply::BadCache;
        }
        if named.size != size {
            return Reply::BadSize;
        }
        self.memory.give_back(address);
        self.live.freed(address);
        self.memory.set_slot(thread, slot, 0);
        Reply::Ok
    }

    /// A free of a slab's chunk that is named rightly.
    fn free_chunk(&mut self, step: &'a Step, slot: u32, slab: u32, address: u64) -> Reply {
        let standing = self.slabs.get(slab);
        let number = standing.cache;
        let cache = &mut self.caches[number as usize];
        let chunk = standing.first + standing.index_at(address, &cache.geometry);
        let round = Round { chunk, address: address as u32 };
        let shape = shape_of(cache.size, number, chunk);
        let bytes = self.memory.bytes(address, cache.geometry.chunk as usize);
        if self.options.guards && first_broken(bytes, shape, false).is_some() {
            return Reply::Redzone;
        }
        if self.journal.keeps_acts() {
            self.journal.save(self.transcript.entries, chunk, &bytes[..cache.size as usize]);
        }
        if self.options.guards {
            write_free(bytes, shape);
        }
        standing.live -= 1;
        self.live.freed(address);
        let cpu = (step.thread % self.script.cpus) as usize;
        if let Err(round) = cache.magazines.put(cpu, round) {
            self.slabs.put(&mut cache.listed, round);
        }
        self.note(journal::FREE, step, slab, round);
        self.memory.set_slot(step.thread, slot, 0);
        Reply::Ok
    }

    /// Writes bytes behind a slot's word.
    fn store(&mut self, thread: u32, slot: u32, offset: u32, bytes: &[u8]) -> Reply {
        match self.place(thread, slot, offset, bytes.len()) {
            Ok(place) => {
                place.copy_from_slice(bytes);
                Reply::Ok
            }
            Err(reply) => reply,
        }
    }

    /// Gives a slot the word behind another one's word.
    fn load(&mut self, thread: u32, to: u32, slot: u32, offset: u32) -> Reply {
        match self.place(thread, slot, offset, WORD) {
            Ok(place) => {
                let word = u64::from_le_bytes((&*place).try_into().unwrap());
                self.memory.set_slot(thread, to, word);
                Reply::Word(word)
            }
            Err(reply) => reply,
        }
    }

    /// The bytes that a store or a load is about, or how it is refused.
    fn place(&mut self, thread: u32, slot: u32, offset: u32, length: usize) -> Result<&mut [u8], Reply> {
        let word = self.memory.slot(thread, slot);
        if word == 0 {
            return Err(Reply::Null);
        }
        let address = word.checked_add(u64::from(offset)).ok_or(Reply::Fault)?;
        self.memory.range(address, length).ok_or(Reply::Fault)
    }

    /// Empties all magazines, and gives back the slabs that no chunk lives in.
    fn reap(&mut self, thread: u32) -> Reply {
        for number in 0..self.caches.len() {
            let Cache { magazines, listed, name, .. } = &mut self.caches[number];
            magazines.drain(|round| self.slabs.put(listed, round));
            for base in self.slabs.drop_unused(listed) {
                self.memory.give_back(base);
                self.transcript.inner(thread, b"shrink ", name, base);
            }
        }
        Reply::Ok
    }
}

/// What the bytes of a chunk depend on.
fn shape_of(size: u32, cache: u32, chunk: u32) -> Shape {
    Shape { size, chunk, class: (cache < CLASS_COUNT).then_some(cache) }
}
