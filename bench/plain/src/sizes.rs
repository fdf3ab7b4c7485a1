//! The table of sizes, and what follows from a cache's size and alignment.

pub const PAGE: usize = 4096;
pub const TAG_BYTES: u32 = 24;

pub const CLASSES: [u32; 32] = [
    8, 16, 24, 32, 40, 48, 56, 64, 80, 96, 112, 128, 160, 192, 224, 256, 320, 384, 448, 512, 640, 768, 896, 1024, 1280,
    1536, 1792, 2048, 2560, 3072, 3584, 4096,
];

#[derive(Clone, Copy)]
pub struct Geometry {
    pub chunk: u32,
    pub pages: u32,
    pub rounds: u32,
    pub leftover: u32,
    pub magazine: u32,
}

/// The least class that holds the size.
pub fn class_of(size: u32) -> Option<u32> {
    let class = CLASSES.partition_point(|held| *held < size);
    (size > 0 && class < CLASSES.len()).then_some(class as u32)
}

/// The quantities of a cache, with guards or without.
pub fn geometry(size: u32, align: u32, guards: bool) -> Geometry {
    let content = size.next_multiple_of(8);
    let tag = if guards { TAG_BYTES } else { 0 };
    let chunk = (content + tag).next_multiple_of(align);
    let pages = (8 * chunk).div_ceil(PAGE as u32).max(1);
    let bytes = pages * PAGE as u32;
    let magazine = if chunk <= 128 { 15 } else if chunk <= 512 { 7 } else { 3 };
    Geometry { chunk, pages, rounds: bytes / chunk, leftover: bytes % chunk, magazine }
}
