//! A core of either version, read without a look at its rules.

use crate::sizes::geometry;

const PAGE: u32 = 4096;
const HEADER_BYTES: usize = 72;
const NAME_BYTES: usize = 32;
const ROOT_WORDS: u32 = 512;

pub struct Cache<'a> {
    pub name: &'a [u8],
    pub size: u32,
    pub ctor: Option<u8>,
    pub chunk: u32,
    pub rounds: u32,
    pub pages: u32,
    magazine: u32,
}

pub struct Slab<'a> {
    pub base: u64,
    pub cache: u32,
    pub colour: u32,
    pub first: u32,
    pub bytes: &'a [u8],
}

pub struct Large<'a> {
    pub base: u64,
    pub size: u64,
    pub bytes: &'a [u8],
}

pub struct Audit {
    pub chunk: u32,
    pub stack: Vec<u64>,
}

pub struct Transaction {
    pub cpu: u32,
    pub thread: u32,
    pub chunk: u32,
    pub address: u64,
    pub time: u64,
}

pub struct Saved<'a> {
    pub time: u64,
    pub chunk: u32,
    pub bytes: &'a [u8],
}

pub struct Core<'a> {
    pub flags: u32,
    pub guards: bool,
    pub roots: Vec<u64>,
    pub caches: Vec<Cache<'a>>,
    pub slabs: Vec<Slab<'a>>,
    pub large: Vec<Large<'a>>,
    pub held: Vec<u32>,
    pub audits: Vec<Audit>,
    pub transactions: Vec<Transaction>,
    pub saved: Vec<Saved<'a>>,
}

/// How many items a core has in its sections.
struct Counts {
    version: u32,
    cpus: u32,
    caches: u32,
    slabs: u32,
    large: u32,
    audits: u32,
    transactions: u32,
    fails: u32,
    threads: u32,
    saved: u32,
}

/// The eight bytes at a place as a number.
pub fn word(bytes: &[u8], at: usize) -> u64 {
    u64::from_le_bytes(bytes[at..at + 8].try_into().unwrap())
}

/// The four bytes at a place as a number.
pub fn half(bytes: &[u8], at: usize) -> u32 {
    u32::from_le_bytes(bytes[at..at + 4].try_into().unwrap())
}

struct Reader<'a> {
    bytes: &'a [u8],
    at: usize,
}

impl<'a> Reader<'a> {
    /// The next number of four bytes.
    fn half(&mut self) -> u32 {
        self.at += 4;
        half(self.bytes, self.at - 4)
    }

    /// The next number of eight bytes.
    fn word(&mut self) -> u64 {
        self.at += 8;
        word(self.bytes, self.at - 8)
    }

    /// The next bytes.
    fn take(&mut self, count: usize) -> &'a [u8] {
        self.at += count;
        &self.bytes[self.at - count..self.at]
    }

    /// So many numbers of four bytes, at the end of a list.
    fn halves(&mut self, count: u32, out: &mut Vec<u32>) {
        for _ in 0..count {
            let number = self.half();
            out.push(number);
        }
    }
}

/// The bytes of the pages that so many bytes take.
fn paged(bytes: u32) -> usize {
    bytes.next_multiple_of(PAGE) as usize
}

/// A core by its bytes.
pub fn read(bytes: &[u8]) -> Core<'_> {
    let mut from = Reader { bytes, at: 0 };
    let flags = half(bytes, 12);
    let counts = read_counts(&mut from);
    let own = if counts.version == 1 { 0 } else { counts.threads };
    let mut core = Core {
        flags,
        guards: flags & 4 != 0,
        roots: (0..ROOT_WORDS * (1 + own)).map(|_| from.word()).collect(),
        caches: Vec::new(),
        slabs: Vec::new(),
        large: Vec::new(),
        held: Vec::new(),
        audits: Vec::new(),
        transactions: Vec::new(),
        saved: Vec::new(),
    };
    core.caches = (0..counts.caches).map(|_| read_cache(&mut from, counts.version, core.guards)).collect();
    read_spans(&mut from, &mut core, &counts);
    read_places(&mut from, &mut core, &counts);
    read_logs(&mut from, &mut core, &counts);
    read_pages(&mut from, &mut core);
    core
}

/// The counts of the header, which ends there.
fn read_counts(from: &mut Reader) -> Counts {
    let version = half(from.bytes, 8);
    from.at = 24;
    let [cpus, caches, slabs, large, audits, _, transactions, _, fails, _] = std::array::from_fn(|_| from.half());
    from.at = HEADER_BYTES;
    let [threads, _, saved] = if version == 1 { [0; 3] } else { std::array::from_fn(|_| from.half()) };
    Counts { version, cpus, caches, slabs, large, audits, transactions, fails, threads, saved }
}

/// A cache with its quantities.
fn read_cache<'a>(from: &mut Reader<'a>, version: u32, guards: bool) -> Cache<'a> {
    let padded = from.take(NAME_BYTES);
    let length = padded.iter().position(|byte| *byte == 0).unwrap_or(NAME_BYTES);
    let (size, align) = (from.half(), from.half());
    from.half();
    let ctor = if version == 1 { None } else { u8::try_from(from.half()).ok() };
    let shape = geometry(size, align, guards);
    Cache {
        name: &padded[..length],
        size,
        ctor,
        chunk: shape.chunk,
        rounds: shape.rounds,
        pages: shape.pages,
        magazine: shape.magazine,
    }
}

/// The slabs and the large buffers, yet without their bytes.
fn read_spans(from: &mut Reader, core: &mut Core, counts: &Counts) {
    for _ in 0..counts.slabs {
        let base = from.word();
        let [cache, colour, first, free] = std::array::from_fn(|_| from.half());
        from.halves(free, &mut core.held);
        core.slabs.push(Slab { base, cache, colour, first, bytes: &[] });
    }
    for _ in 0..counts.large {
        let (base, size) = (from.word(), from.word());
        core.large.push(Large { base, size, bytes: &[] });
    }
}

/// The magazines and the depots.
fn read_places(from: &mut Reader, core: &mut Core, counts: &Counts) {
    for _ in 0..2 * counts.cpus * counts.caches {
        let count = from.half();
        from.halves(count, &mut core.held);
    }
    for cache in 0..counts.caches as usize {
        let count = from.half() * core.caches[cache].magazine;
        from.halves(count, &mut core.held);
    }
}

/// The audits, the transactions, the fails and the saved items.
fn read_logs<'a>(from: &mut Reader<'a>, core: &mut Core<'a>, counts: &Counts) {
    for _ in 0..counts.audits {
        let chunk = from.half();
        from.at += 12;
        let depth = from.half();
        let stack = (0..depth).map(|_| from.word()).collect();
        core.audits.push(Audit { chunk, stack });
    }
    for _ in 0..counts.transactions {
        let [_, cpu, thread, chunk] = std::array::from_fn(|_| from.half());
        let (address, time) = (from.word(), from.word());
        from.at += 8 * from.half() as usize;
        core.transactions.push(Transaction { cpu, thread, chunk, address, time });
    }
    from.at += 24 * counts.fails as usize;
    for _ in 0..counts.saved {
        let (time, chunk, length) = (from.word(), from.half(), from.half());
        core.saved.push(Saved { time, chunk, bytes: from.take(length as usize) });
    }
}

/// The bytes of the slabs and the large buffers, by rising base over both.
fn read_pages<'a>(from: &mut Reader<'a>, core: &mut Core<'a>) {
    let mut next = 0;
    for slab in &mut core.slabs {
        while next < core.large.len() && core.large[next].base < slab.base {
            core.large[next].bytes = from.take(paged(core.large[next].size as u32));
            next += 1;
        }
        slab.bytes = from.take((PAGE * core.caches[slab.cache as usize].pages) as usize);
    }
    for item in &mut core.large[next..] {
        item.bytes = from.take(paged(item.size as u32));
    }
}
