//! The text that a run prints.

use crate::heap::Reply;
use crate::script::{CacheDef, Op, Script, Step, CLASS_COUNT, OWN_SLOTS};
use crate::tags::Finding;
use crate::text::{put_bytes, put_decimal, put_hex};

pub struct Transcript {
    pub out: Vec<u8>,
    pub entries: u64,
}

impl Transcript {
    /// The lines before the first entry.
    pub fn new(script: &Script, guards: bool) -> Transcript {
        let mut text = Transcript { out: b"transcript ".to_vec(), entries: 0 };
        text.number(script.version);
        text.named(b" cpus ", script.cpus);
        text.named(b" threads ", script.threads);
        text.put(if guards { b" guards on\n" } else { b" guards off\n" });
        script.caches.iter().for_each(|def| text.cache(def));
        text
    }

    /// The line of a declared cache.
    fn cache(&mut self, def: &CacheDef) {
        self.put(b"cache ");
        self.put(&def.name);
        self.named(b" ", def.size);
        self.named(b" ", def.align);
        if let Some(byte) = def.ctor {
            self.put(b" ");
            put_bytes(&mut self.out, &[byte]);
        }
        self.put(b"\n");
    }

    /// Some bytes.
    fn put(&mut self, bytes: &[u8]) {
        self.out.extend_from_slice(bytes);
    }

    /// A number in decimal.
    fn number(&mut self, number: u32) {
        put_decimal(&mut self.out, u64::from(number));
    }

    /// A number with a text before it.
    fn named(&mut self, name: &[u8], number: u32) {
        self.put(name);
        self.number(number);
    }

    /// The number and the thread of the next entry.
    fn begin(&mut self, thread: u32) {
        put_decimal(&mut self.out, self.entries);
        self.named(b" ", thread);
        self.put(b" ");
        self.entries += 1;
    }

    /// The entry of a slab that is made or given back.
    pub fn inner(&mut self, thread: u32, what: &[u8], name: &[u8], base: u64) {
        self.begin(thread);
        self.put(what);
        self.put(name);
        self.put(b" ");
        put_hex(&mut self.out, base);
        self.put(b" -> ok\n");
    }

    /// The entry of a call.
    pub fn call(&mut self, step: &Step, caches: &[CacheDef], reply: &Reply) {
        self.begin(step.thread);
        self.op(&step.op, caches);
        self.put(b" -> ");
        self.reply(reply);
        self.put(b"\n");
    }

    /// The last line.
    pub fn end(&mut self) {
        self.put(b"end ");
        put_decimal(&mut self.out, self.entries);
        self.put(b"\n");
    }

    /// A call's name and its first slot.
    fn slotted(&mut self, name: &[u8], slot: u32) {
        self.put(name);
        self.slot(slot);
    }

    /// A slot behind a space.
    fn slot(&mut self, slot: u32) {
        if slot < OWN_SLOTS {
            self.named(b" $", slot);
        } else {
            self.named(b" %", slot - OWN_SLOTS);
        }
    }

    /// A call's name, its first slot and a number.
    fn sized(&mut self, name: &[u8], slot: u32, size: u32) {
        self.slotted(name, slot);
        self.named(b" ", size);
    }

    /// A call's name, its slot and a cache's name.
    fn cached(&mut self, name: &[u8], slot: u32, caches: &[CacheDef], cache: u32) {
        self.slotted(name, slot);
        self.put(b" ");
        self.put(&caches[(cache - CLASS_COUNT) as usize].name);
    }

    /// A call as a script has it, without its stack.
    fn op(&mut self, op: &Op, caches: &[CacheDef]) {
        match op {
            Op::Alloc { slot, size } => self.sized(b"alloc", *slot, *size),
            Op::Zalloc { slot, size } => self.sized(b"zalloc", *slot, *size),
            Op::Free { slot, size } => self.sized(b"free", *slot, *size),
            Op::CacheAlloc { slot, cache } => self.cached(b"cache_alloc", *slot, caches, *cache),
            Op::CacheFree { slot, cache } => self.cached(b"cache_free", *slot, caches, *cache),
            Op::Copy { to, from } => {
                self.slotted(b"copy", *to);
                self.slot(*from);
            }
            Op::Clear { slot } => self.slotted(b"clear", *slot),
            Op::Store { slot, offset, bytes } => {
                self.sized(b"store", *slot, *offset);
                self.put(b" ");
                put_bytes(&mut self.out, bytes.as_slice());
            }
            Op::Link { slot, offset, value } => {
                self.sized(b"link", *slot, *offset);
                self.slot(*value);
            }
            Op::Load { to, slot, offset } => {
                self.slotted(b"load", *to);
                self.slot(*slot);
                self.named(b" ", *offset);
            }
            Op::Reap => self.put(b"reap"),
        }
    }

    /// The answer to a call.
    fn reply(&mut self, reply: &Reply) {
        match reply {
            Reply::Ok => self.put(b"ok"),
            Reply::Null => self.put(b"null"),
            Reply::NoSpace => self.put(b"nospace"),
            Reply::At { address, report } => {
                self.put(b"ok ");
                put_hex(&mut self.out, *address);
                self.report(*report);
            }
            Reply::Dup => self.put(b"dup"),
            Reply::BadAddr => self.put(b"badaddr"),
            Reply::BadCache => self.put(b"badcache"),
            Reply::BadSize => self.put(b"badsize"),
            Reply::Redzone => self.put(b"redzone"),
            Reply::Fault => self.put(b"fault"),
            Reply::Word(word) => {
                self.put(b"word ");
                put_hex(&mut self.out, *word);
            }
        }
    }

    /// What was wrong with a free chunk that is handed out.
    fn report(&mut self, report: Option<Finding>) {
        match report {
            None => {}
            Some(Finding::Content(offset)) => self.named(b" modified ", offset),
            Some(_) => self.put(b" redzone"),
        }
    }
}
