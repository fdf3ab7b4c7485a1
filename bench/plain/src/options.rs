//! The texts of UMEM_DEBUG and UMEM_LOGGING.

const MOST_FRAMES: u64 = 32;
const MOST_CONTENTS: u64 = 4096;
const MOST_LOG: u64 = 64 << 20;
const COMMON_LOG: u64 = 65536;
const COMMON_FRAMES: u32 = 15;
const COMMON_CONTENTS: u32 = 256;

pub struct Options {
    pub audit: bool,
    pub keeps_contents: bool,
    pub guards: bool,
    pub frames: u32,
    pub contents: u32,
}

#[derive(Default)]
pub struct Logging {
    transaction: u64,
    contents: u64,
    fail: u64,
}

impl Options {
    /// The flags as the bits of a core.
    pub fn flags(&self) -> u32 {
        u32::from(self.audit) | u32::from(self.keeps_contents) << 1 | u32::from(self.guards) << 2
    }

    /// The most bytes that are kept of a freed buffer.
    pub fn saved_bytes(&self) -> u32 {
        if self.keeps_contents { self.contents } else { COMMON_CONTENTS }
    }

    /// Turns audit on, with so many frames.
    fn set_audit(&mut self, frames: u32) {
        self.audit = true;
        self.guards = true;
        self.frames = frames;
    }

    /// Turns contents on, with so many bytes.
    fn set_contents(&mut self, contents: u32) {
        self.keeps_contents = true;
        self.contents = contents;
    }
}

impl Logging {
    /// How many transactions are kept.
    pub fn transactions(&self, options: &Options) -> u32 {
        if options.audit { (self.transaction / (64 + 8 * u64::from(options.frames))) as u32 } else { 0 }
    }

    /// How many fails are kept.
    pub fn fails(&self) -> u32 {
        (self.fail / 24) as u32
    }

    /// How many saved items are kept.
    pub fn saved(&self, options: &Options) -> u32 {
        if options.audit { (self.contents / (24 + u64::from(options.saved_bytes()))) as u32 } else { 0 }
    }
}

/// The value of a text of digits, which counts as the most that there is where it passes 64 bits.
fn digits_of(text: &str) -> Option<u64> {
    let are_digits = !text.is_empty() && text.bytes().all(|byte| byte.is_ascii_digit());
    are_digits.then(|| text.parse().unwrap_or(u64::MAX))
}

/// A value up to a bound, or the common one where the text is no number.
fn bounded(text: &str, most: u64, common: u32) -> u32 {
    digits_of(text).map_or(common, |value| value.min(most) as u32)
}

/// What the text of UMEM_DEBUG asks for.
pub fn read_debug(text: &str) -> Options {
    let mut options = Options {
        audit: false,
        keeps_contents: false,
        guards: false,
        frames: COMMON_FRAMES,
        contents: COMMON_CONTENTS,
    };
    for item in text.split(',') {
        match item.split_once('=') {
            Some(("audit", value)) => options.set_audit(bounded(value, MOST_FRAMES, COMMON_FRAMES)),
            Some(("contents", value)) => options.set_contents(bounded(value, MOST_CONTENTS, COMMON_CONTENTS)),
            Some(_) => {}
            None => read_name(&mut options, item),
        }
    }
    options
}

/// An item without a value.
fn read_name(options: &mut Options, name: &str) {
    match name {
        "audit" => options.set_audit(COMMON_FRAMES),
        "contents" => options.set_contents(COMMON_CONTENTS),
        "guards" => options.guards = true,
        "default" => {
            options.set_audit(COMMON_FRAMES);
            options.set_contents(COMMON_CONTENTS);
        }
        _ => {}
    }
}

/// The bytes of a log: digits and maybe a letter that makes them 1,024 times as much, or more.
fn log_size(text: &str) -> u64 {
    let letters = "kmgt";
    let last = text.chars().last().map_or(' ', |letter| letter.to_ascii_lowercase());
    let (digits, power) = match letters.find(last) {
        Some(power) => (&text[..text.len() - 1], power as u32 + 1),
        None => (text, 0),
    };
    let size = digits_of(digits).unwrap_or(0).saturating_mul(1024u64.pow(power));
    if size > MOST_LOG { 0 } else { size }
}

/// What the text of UMEM_LOGGING asks for.
pub fn read_logging(text: &str) -> Logging {
    let mut logging = Logging::default();
    for item in text.split(',') {
        let (name, size) = match item.split_once('=') {
            Some((name, value)) => (name, log_size(value)),
            None => (item, COMMON_LOG),
        };
        match name {
            "transaction" => logging.transaction = size,
            "contents" => logging.contents = size,
            "fail" => logging.fail = size,
            _ => {}
        }
    }
    logging
}
