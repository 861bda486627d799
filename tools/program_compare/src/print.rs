//! Replies as bytes.
use arrow2::datatypes::DataType;

use crate::words::TYPES;

/// What prints as an item, or as a slot.
pub trait Print {
    fn print(self, out: &mut Vec<u8>);
}

impl Print for &i64 {
    fn print(self, out: &mut Vec<u8>) {
        out.push(b'v');
        if *self < 0 {
            out.push(b'-');
        }
        number(self.unsigned_abs(), out);
    }
}

impl Print for i64 {
    fn print(self, out: &mut Vec<u8>) {
        (&self).print(out);
    }
}

impl Print for bool {
    fn print(self, out: &mut Vec<u8>) {
        out.extend_from_slice(if self { b"b1" } else { b"b0" });
    }
}

impl Print for &[u8] {
    fn print(self, out: &mut Vec<u8>) {
        out.push(b'x');
        hexadecimal(self, out);
    }
}

impl Print for &str {
    fn print(self, out: &mut Vec<u8>) {
        out.push(b't');
        hexadecimal(self.as_bytes(), out);
    }
}

impl<T: Print> Print for Option<T> {
    fn print(self, out: &mut Vec<u8>) {
        match self {
            Some(item) => item.print(out),
            None => out.push(b'_'),
        }
    }
}

pub fn number(mut number: u64, out: &mut Vec<u8>) {
    let mut digits = [0; 20];
    let mut at = digits.len();
    loop {
        at -= 1;
        digits[at] = b'0' + (number % 10) as u8;
        number /= 10;
        if number == 0 {
            break;
        }
    }
    out.extend_from_slice(&digits[at..]);
}

fn hexadecimal(bytes: &[u8], out: &mut Vec<u8>) {
    const DIGITS: &[u8; 16] = b"0123456789abcdef";
    out.reserve(2 * bytes.len());
    for byte in bytes {
        out.push(DIGITS[usize::from(byte >> 4)]);
        out.push(DIGITS[usize::from(byte & 15)]);
    }
}

/// A list, each part of which is printed by a function.
pub fn list<T>(parts: impl Iterator<Item = T>, out: &mut Vec<u8>, print: impl Fn(T, &mut Vec<u8>)) {
    out.push(b'[');
    for (at, part) in parts.enumerate() {
        if at > 0 {
            out.push(b' ');
        }
        print(part, out);
    }
    out.push(b']');
}

pub fn flag(holds: bool) -> &'static str {
    if holds {
        "true"
    } else {
        "false"
    }
}

pub fn type_word(data_type: &DataType) -> &'static str {
    let found = TYPES.iter().find(|(_, known)| known == data_type);
    found.map_or("other", |(name, _)| *name)
}
