//! What `mdb` answers over a core.

use crate::commands::Command;
use crate::script::CLASS_COUNT;
use crate::tags::bufctl_of;
use crate::text::{put_bytes, put_decimal, put_digits, put_hex};
use crate::view::{Buffer, Hit, View};
use crate::views::{classes, findings, groups, Group};

const CACHE_BASE: u64 = 0x3000_0000;
const CACHE_STEP: u64 = 0x400;
const SOME_BYTES: u64 = 8192;
const SOME_BUFFERS: u64 = 100;
const OVERSIZE: &[u8] = b"umem_oversize";
const DIGITS: &[u8] = b"0000000000000000";

/// The answer to a command, behind what stands there.
pub fn answer(view: &View, command: Command, out: &mut Vec<u8>) {
    match command {
        Command::Caches => put_caches(view, out),
        Command::Verify => put_findings(view, out),
        Command::Log => put_log(view, out),
        Command::Contents => put_contents(view, out),
        Command::Users { every } => put_users(view, every, out),
        Command::Whatis { address } => put_whatis(view, address, out),
        Command::Leaks => put_leaks(view, out),
        Command::Walk { free, cache } => put_walk(view, free, cache, out),
    }
}

/// Some bytes.
fn put(out: &mut Vec<u8>, text: &[u8]) {
    out.extend_from_slice(text);
}

/// A number in hexadecimal with leading zeros.
fn put_zeroed(out: &mut Vec<u8>, number: u32, width: usize) {
    let digits = (32 - number.leading_zeros()).div_ceil(4).max(1) as usize;
    put(out, &DIGITS[..width.saturating_sub(digits)]);
    put_hex(out, u64::from(number));
}

/// A heading, and a line for each cache.
fn put_caches(view: &View, out: &mut Vec<u8>) {
    put(out, b"    ADDR NAME                      FLAG  CFLAG  BUFSIZE  BUFTOTL\n");
    let mut chunks = vec![0; view.core.caches.len()];
    for slab in &view.core.slabs {
        chunks[slab.cache as usize] += view.core.caches[slab.cache as usize].rounds;
    }
    for (number, cache) in (0..).zip(&view.core.caches) {
        put_digits(out, CACHE_BASE + CACHE_STEP * u64::from(number), 16, 8);
        put(out, b" ");
        put(out, cache.name);
        out.resize(out.len() + 26 - cache.name.len().min(25), b' ');
        put_zeroed(out, view.core.flags, 4);
        put(out, b" ");
        put_zeroed(out, u32::from(number < CLASS_COUNT), 6);
        put(out, b" ");
        put_digits(out, u64::from(cache.size), 10, 8);
        put(out, b" ");
        put_digits(out, u64::from(chunks[number as usize]), 10, 8);
        put(out, b"\n");
    }
}

/// A line for each damaged chunk, and how many there are.
fn put_findings(view: &View, out: &mut Vec<u8>) {
    let lines = findings(view);
    for line in &lines {
        put_hex(out, line.address);
        put(out, if line.is_free { b" free " } else { b" allocated " });
        put(out, view.core.caches[line.cache as usize].name);
        put(out, b" ");
        line.finding.put(out);
        put(out, b"\n");
    }
    put(out, b"findings ");
    put_decimal(out, lines.len() as u64);
    put(out, b"\n");
}

/// A heading, and a line for each transaction, the newest first.
fn put_log(view: &View, out: &mut Vec<u8>) {
    put(out, b"CPU     ADDR  BUFADDR TIMESTAMP THREAD\n");
    for item in view.core.transactions.iter().rev() {
        put_digits(out, u64::from(item.cpu), 10, 3);
        put(out, b" ");
        put_digits(out, bufctl_of(item.chunk), 16, 8);
        put(out, b" ");
        put_digits(out, item.address, 16, 8);
        put(out, b" ");
        put_digits(out, item.time, 10, 9);
        put(out, b" ");
        put_digits(out, u64::from(item.thread), 10, 6);
        put(out, b"\n");
    }
}

/// A line for each saved item, the newest first.
fn put_contents(view: &View, out: &mut Vec<u8>) {
    for item in view.core.saved.iter().rev() {
        put_decimal(out, item.time);
        put(out, b" ");
        put_hex(out, bufctl_of(item.chunk));
        put(out, b" ");
        put_decimal(out, item.bytes.len() as u64);
        put(out, b" ");
        if item.bytes.is_empty() {
            put(out, b"-");
        }
        put_bytes(out, item.bytes);
        put(out, b"\n");
    }
}

/// The groups of buffers of one size and one stack, all or the larger ones.
fn put_users(view: &View, every: bool, out: &mut Vec<u8>) {
    for group in groups(view) {
        if every || group.total >= SOME_BYTES || group.count >= SOME_BUFFERS {
            put_group(&group, out);
        }
    }
}

/// What a group holds, and its stack.
fn put_group(group: &Group, out: &mut Vec<u8>) {
    put_decimal(out, group.total);
    put(out, b" bytes for ");
    put_decimal(out, group.count);
    put(out, b" allocations with data size ");
    put_decimal(out, group.size);
    put(out, b":\n");
    for frame in group.stack {
        put(out, b"    ");
        put_hex(out, *frame);
        put(out, b"\n");
    }
}

/// What an address stands in.
fn put_whatis(view: &View, address: u64, out: &mut Vec<u8>) {
    put_hex(out, address);
    put(out, b" is ");
    match view.hit(address) {
        Some(Hit::Chunk { slab, index, offset }) => put_chunk(view, slab, index, offset, out),
        Some(Hit::Large { index, offset }) => put_large(view, index, offset, out),
        Some(Hit::Slab { slab }) => {
            put(out, b"in a slab of ");
            put(out, view.core.caches[view.core.slabs[slab].cache as usize].name);
        }
        Some(Hit::Root { thread, word }) => put_root(thread, word, out),
        None => put(out, b"unknown"),
    }
    put(out, b"\n");
}

/// A base and an offset from it.
fn put_place(base: u64, offset: u64, out: &mut Vec<u8>) {
    put_hex(out, base);
    put(out, b"+");
    put_hex(out, offset);
}

/// A place in a chunk's buffer.
fn put_chunk(view: &View, slab: usize, index: u32, offset: u64, out: &mut Vec<u8>) {
    let slab = &view.core.slabs[slab];
    let cache = &view.core.caches[slab.cache as usize];
    let chunk = slab.first + index;
    put_place(slab.base + u64::from(slab.colour + index * cache.chunk), offset, out);
    put(out, b", bufctl ");
    put_hex(out, bufctl_of(chunk));
    put(out, if view.is_held(chunk) { b" freed from " } else { b" allocated from " });
    put(out, cache.name);
}

/// A place in a large buffer, or in the rest of its pages.
fn put_large(view: &View, index: usize, offset: u64, out: &mut Vec<u8>) {
    let item = &view.core.large[index];
    if offset >= item.size {
        put(out, b"past the end of ");
        return put_hex(out, item.base);
    }
    put_place(item.base, offset, out);
    put(out, b", ");
    put_decimal(out, item.size);
    put(out, b" bytes allocated from ");
    put(out, OVERSIZE);
}

/// A word of the shared root page, or of a thread's own.
fn put_root(thread: Option<u64>, word: u64, out: &mut Vec<u8>) {
    put(out, b"in the root segment");
    if let Some(thread) = thread {
        put(out, b" of thread ");
        put_decimal(out, thread);
    }
    put(out, b", word ");
    put_decimal(out, word);
}

/// A line for each leaked buffer, and the sums.
fn put_leaks(view: &View, out: &mut Vec<u8>) {
    let classes = classes(view);
    for buffer in &classes.leaked {
        put_leaked(view, buffer, out);
    }
    put(out, b"reached ");
    put_decimal(out, classes.reached.len() as u64);
    put(out, b" leaked ");
    put_decimal(out, classes.leaked.len() as u64);
    put(out, b" bytes ");
    put_decimal(out, classes.leaked.iter().map(|buffer| buffer.size).sum());
    put(out, b"\n");
}

/// The line of a leaked buffer.
fn put_leaked(view: &View, buffer: &Buffer, out: &mut Vec<u8>) {
    put_hex(out, buffer.address);
    put(out, b" ");
    put(out, buffer.cache.map_or(OVERSIZE, |cache| view.core.caches[cache as usize].name));
    put(out, b" ");
    put_decimal(out, buffer.size);
    put(out, b" ");
    match buffer.chunk {
        Some(chunk) => put_hex(out, bufctl_of(chunk)),
        None => put(out, b"-"),
    }
    put(out, b"\n");
}

/// The number of the cache that has an address.
fn cache_at(view: &View, address: u64) -> Option<u32> {
    let place = address.checked_sub(CACHE_BASE)?;
    let is_cache = place % CACHE_STEP == 0 && place / CACHE_STEP < view.core.caches.len() as u64;
    is_cache.then_some((place / CACHE_STEP) as u32)
}

/// The addresses of free or allocated buffers, of one cache where one is named.
fn put_walk(view: &View, free: bool, cache: Option<u64>, out: &mut Vec<u8>) {
    let buffers = if free { &view.free } else { &view.buffers };
    let only = cache.map(|address| (address, cache_at(view, address)));
    if let Some((address, None)) = only {
        put_hex(out, address);
        return put(out, b": no such cache\n");
    }
    for buffer in buffers {
        if only.map_or(true, |(_, number)| buffer.cache == number) {
            put_hex(out, buffer.address);
            put(out, b"\n");
        }
    }
}
