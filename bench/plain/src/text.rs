//! Numbers as text, at the end of a buffer of bytes.

const DIGITS: &[u8; 16] = b"0123456789abcdef";

/// A number in decimal.
pub fn put_decimal(out: &mut Vec<u8>, number: u64) {
    put_digits(out, number, 10, 0);
}

/// A number in hexadecimal.
pub fn put_hex(out: &mut Vec<u8>, number: u64) {
    put_digits(out, number, 16, 0);
}

/// A number in some base, with spaces before it up to a width.
pub fn put_digits(out: &mut Vec<u8>, mut number: u64, base: u64, width: usize) {
    let mut digits = [b' '; 20];
    let mut at = digits.len();
    loop {
        at -= 1;
        digits[at] = DIGITS[(number % base) as usize];
        number /= base;
        if number == 0 {
            break;
        }
    }
    let from = at.min(digits.len() - width);
    out.extend_from_slice(&digits[from..]);
}

/// Two hexadecimal digits for each byte.
pub fn put_bytes(out: &mut Vec<u8>, bytes: &[u8]) {
    for byte in bytes {
        out.extend_from_slice(&[DIGITS[usize::from(byte >> 4)], DIGITS[usize::from(byte & 15)]]);
    }
}

/// The value of a hexadecimal digit of either case.
pub fn hex_digit(digit: u8) -> Option<u8> {
    match digit {
        b'0'..=b'9' => Some(digit - b'0'),
        b'a'..=b'f' => Some(digit - b'a' + 10),
        b'A'..=b'F' => Some(digit - b'A' + 10),
        _ => None,
    }
}

/// The value of hexadecimal digits, where they are some and fit 64 bits.
pub fn hex(digits: &[u8]) -> Option<u64> {
    if digits.is_empty() {
        return None;
    }
    let mut number: u64 = 0;
    for digit in digits {
        if number >> 60 != 0 {
            return None;
        }
        number = number << 4 | u64::from(hex_digit(*digit)?);
    }
    Some(number)
}
