//! Paths, names and texts as they stand in a listing: as they are, or in quotes with escapes.

use super::fault::{Fault, Place};

fn is_portable(byte: u8) -> bool {
    byte.is_ascii_alphanumeric() || b"._-".contains(&byte)
}

fn escape(bytes: &[u8]) -> String {
    let mut out = String::new();
    for &byte in bytes {
        match byte {
            b'"' | b'\\' => out.extend(['\\', char::from(byte)]),
            b' '..=b'~' => out.push(char::from(byte)),
            _ => out += &format!("\\x{byte:02x}"),
        }
    }
    out
}

/// A name with its escapes, as a part of a path. Names of an image at fault may hold a slash, which is no separator.
pub fn name(bytes: &[u8]) -> String {
    escape(bytes).replace('/', "\\x2f")
}

/// A path whose names have their escapes, in quotes if need be.
pub fn path(escaped: &str) -> String {
    match !escaped.is_empty() && escaped.bytes().all(|byte| is_portable(byte) || byte == b'/') {
        true => escaped.to_owned(),
        false => format!("\"{escaped}\""),
    }
}

/// Any bytes, in quotes if need be.
pub fn text(bytes: &[u8]) -> String {
    path(&escape(bytes))
}

/// The bytes between the quote that a line begins with and the next, and how many bytes of the line that takes.
pub fn unquote(line: &[u8], place: Place) -> Result<(Vec<u8>, usize), Fault> {
    let mut bytes = Vec::new();
    let mut at = 1;
    loop {
        match line.get(at) {
            None => return Err(place.fault("the quote that begins here has no end on this line")),
            Some(b'"') => return Ok((bytes, at + 1)),
            Some(b'\\') => {
                let (byte, length) = unescape(&line[at..], place.right(at))?;
                bytes.push(byte);
                at += length;
            }
            Some(0) => return Err(place.right(at).fault(NO_ZERO)),
            Some(&byte) => {
                bytes.push(byte);
                at += 1;
            }
        }
    }
}

pub const NO_ZERO: &str = "no name and no text can hold a byte 0";

/// The byte that an escape stands for, and the length of the escape. It begins with a backslash.
fn unescape(line: &[u8], place: Place) -> Result<(u8, usize), Fault> {
    match line.get(1) {
        Some(&byte @ (b'"' | b'\\')) => Ok((byte, 2)),
        Some(b'x') => match line.get(2..4).and_then(hexadecimal) {
            Some(0) => Err(place.fault(NO_ZERO)),
            Some(b'/') => Err(place.fault("a slash is written / and not \\x2f; no name can hold one")),
            Some(byte) => Ok((byte, 4)),
            None => Err(place.fault("two hexadecimal digits have to follow \\x")),
        },
        _ => Err(place.fault("unknown escape; there are \\\", \\\\ and \\x with two hexadecimal digits")),
    }
}

fn hexadecimal(digits: &[u8]) -> Option<u8> {
    let digit = |at: usize| char::from(digits[at]).to_digit(16);
    Some((digit(0)? * 16 + digit(1)?) as u8)
}
