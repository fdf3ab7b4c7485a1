//! The lines that `mdb` is given.

use crate::text::hex;

#[derive(Clone, Copy)]
pub enum Command {
    Caches,
    Verify,
    Log,
    Contents,
    Users { every: bool },
    Whatis { address: u64 },
    Leaks,
    Walk { free: bool, cache: Option<u64> },
}

/// What a name and its words ask for, without the address.
enum Named {
    Plain(Command),
    Whatis,
    Walk { free: bool },
}

/// The part of a line before the colons and the words behind them.
fn parts(line: &str) -> Option<(&str, impl Iterator<Item = &str>)> {
    let (address, rest) = line.split_once("::")?;
    Some((address.trim_matches(is_blank), rest.split(is_blank).filter(|word| !word.is_empty())))
}

/// Tells whether a letter stands between words.
fn is_blank(letter: char) -> bool {
    matches!(letter, ' ' | '\t' | '\r')
}

/// The address of a line, where it has one.
fn address_of(part: &str) -> Result<Option<u64>, &'static str> {
    if part.is_empty() {
        return Ok(None);
    }
    let digits = part.strip_prefix("0x").unwrap_or(part);
    hex(digits.as_bytes()).map(Some).ok_or("bad number")
}

/// What a name and the word behind it ask for.
fn named<'a>(words: &mut impl Iterator<Item = &'a str>) -> Result<Named, &'static str> {
    Ok(match words.next() {
        Some("umem_cache") => Named::Plain(Command::Caches),
        Some("umem_verify") => Named::Plain(Command::Verify),
        Some("umem_log") => Named::Plain(Command::Log),
        Some("umem_contents") => Named::Plain(Command::Contents),
        Some("umausers") => Named::Plain(Command::Users { every: false }),
        Some("findleaks") => Named::Plain(Command::Leaks),
        Some("whatis") => Named::Whatis,
        Some("walk") => match words.next() {
            Some("umem") => Named::Walk { free: false },
            Some("freemem") => Named::Walk { free: true },
            _ => return Err("unknown walker"),
        },
        _ => return Err("unknown dcmd"),
    })
}

/// The command of a line, nothing for a line of blanks, or what is wrong with the line.
pub fn read_command(line: &str) -> Result<Option<Command>, &'static str> {
    if line.trim_matches(is_blank).is_empty() {
        return Ok(None);
    }
    let (part, mut words) = parts(line).ok_or("unknown dcmd")?;
    let named = named(&mut words)?;
    let address = address_of(part)?;
    let command = match (named, address) {
        (Named::Plain(command), None) => command,
        (Named::Plain(_), Some(_)) => return Err("takes no address"),
        (Named::Whatis, Some(address)) => Command::Whatis { address },
        (Named::Whatis, None) => return Err("needs an address"),
        (Named::Walk { free }, cache) => Command::Walk { free, cache },
    };
    let rest: Vec<&str> = words.take(2).collect();
    match (command, rest.as_slice()) {
        (command, []) => Ok(Some(command)),
        (Command::Users { .. }, ["-e"]) => Ok(Some(Command::Users { every: true })),
        _ => Err("extra words"),
    }
}
