//! The tag behind a chunk's content, and what is wrong with a chunk's bytes.

use crate::core::{half, word};
use crate::sizes::class_of;
use crate::text::put_decimal;

const BUFCTL_BASE: u64 = 0x4000_0000;
const ALLOCATED: u64 = 0xa110_c8ed;
const FREE: u64 = 0xf4ee_f4ee;
const FREE_WORD: u64 = 0xdead_beef_dead_beef;
const FRESH_WORD: u64 = 0xbadd_cafe_badd_cafe;
const REDZONE: u64 = 0xfeed_face_feed_face;
const REDZONE_HALF: u32 = 0xfeed_face;
const GUARD_BYTE: u8 = 0xbb;
const CODE_STEP: u32 = 251;

/// What the bytes of a chunk depend on: its cache's size, its number, and the class that its cache is.
#[derive(Clone, Copy)]
pub struct Shape {
    pub size: u32,
    pub chunk: u32,
    pub class: Option<u32>,
}

#[derive(Clone, Copy, PartialEq)]
pub enum Finding {
    Content(u32),
    Redzone,
    SizeCode,
    GuardByte,
    BadTag,
    Unconstructed(u32),
}

impl Finding {
    /// The finding as it is printed.
    pub fn put(self, out: &mut Vec<u8>) {
        let (text, offset): (&[u8], _) = match self {
            Finding::Content(offset) => (b"content ", Some(offset)),
            Finding::Redzone => (b"redzone", None),
            Finding::SizeCode => (b"sizecode", None),
            Finding::GuardByte => (b"guard", None),
            Finding::BadTag => (b"tag", None),
            Finding::Unconstructed(offset) => (b"unconstructed ", Some(offset)),
        };
        out.extend_from_slice(text);
        if let Some(offset) = offset {
            put_decimal(out, u64::from(offset));
        }
    }
}

/// The address of a chunk's bufctl.
pub fn bufctl_of(chunk: u32) -> u64 {
    BUFCTL_BASE + 64 * u64::from(chunk)
}

/// Writes a word.
fn put_word(bytes: &mut [u8], at: usize, value: u64) {
    bytes[at..at + 8].copy_from_slice(&value.to_le_bytes());
}

/// Writes one word again and again.
fn fill(bytes: &mut [u8], value: u64) {
    for piece in bytes.chunks_exact_mut(8) {
        piece.copy_from_slice(&value.to_le_bytes());
    }
}

/// The bufctl word and bxstat.
fn write_tag(bytes: &mut [u8], at: usize, chunk: u32, mark: u64) {
    put_word(bytes, at, bufctl_of(chunk));
    put_word(bytes, at + 8, bufctl_of(chunk) ^ mark);
}

/// Makes the chunk a free one.
pub fn write_free(bytes: &mut [u8], shape: Shape) {
    let content = shape.size.next_multiple_of(8) as usize;
    fill(&mut bytes[..content], FREE_WORD);
    put_word(bytes, content, REDZONE);
    write_tag(bytes, content + 8, shape.chunk, FREE);
}

/// Makes the chunk one that is allocated for so many bytes, with zeros there where they are wanted.
pub fn write_allocated(bytes: &mut [u8], shape: Shape, requested: u32, zero: bool, ctor: Option<u8>) {
    let content = shape.size.next_multiple_of(8) as usize;
    fill(&mut bytes[..content], FRESH_WORD);
    if let Some(byte) = ctor {
        bytes[..shape.size as usize].fill(byte);
    }
    if zero {
        bytes[..requested as usize].fill(0);
    }
    put_word(bytes, content, REDZONE);
    write_tag(bytes, content + 8, shape.chunk, ALLOCATED);
    if shape.class.is_some() {
        bytes[content + 4..content + 8].copy_from_slice(&(CODE_STEP * requested + 1).to_le_bytes());
        bytes[requested as usize] = GUARD_BYTE;
    }
}

/// What the bytes of a chunk say first of what is wrong with it, as a free one or as an allocated one.
pub fn first_broken(bytes: &[u8], shape: Shape, is_free: bool) -> Option<Finding> {
    let content = shape.size.next_multiple_of(8) as usize;
    let bufctl = bufctl_of(shape.chunk);
    let mark = if is_free { FREE } else { ALLOCATED };
    let has_bad_tag = word(bytes, content + 8) != bufctl || word(bytes, content + 16) != bufctl ^ mark;
    let has_bad_word = word(bytes, content) != REDZONE;
    if is_free {
        let wrong = bytes[..content].chunks_exact(8).position(|piece| piece != FREE_WORD.to_le_bytes());
        return match wrong {
            Some(index) => Some(Finding::Content(8 * index as u32)),
            None if has_bad_word => Some(Finding::Redzone),
            None => has_bad_tag.then_some(Finding::BadTag),
        };
    }
    match shape.class {
        _ if has_bad_tag => Some(Finding::BadTag),
        Some(class) => broken_code(bytes, content, class),
        None => has_bad_word.then_some(Finding::Redzone),
    }
}

/// What is wrong with the redzone word and the guard byte of a class's allocated chunk.
fn broken_code(bytes: &[u8], content: usize, class: u32) -> Option<Finding> {
    let code = half(bytes, content + 4);
    let size = code / CODE_STEP;
    if code % CODE_STEP != 1 || class_of(size) != Some(class) {
        return Some(Finding::SizeCode);
    }
    if bytes[size as usize] != GUARD_BYTE {
        return Some(Finding::GuardByte);
    }
    let ignored = if size as usize == content { 0xff } else { 0 };
    (half(bytes, content) | ignored != REDZONE_HALF | ignored).then_some(Finding::Redzone)
}

/// The first byte that is not the constructor's.
pub fn first_unconstructed(bytes: &[u8], value: u8) -> Option<Finding> {
    bytes.iter().position(|byte| *byte != value).map(|offset| Finding::Unconstructed(offset as u32))
}
