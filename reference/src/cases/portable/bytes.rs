//! Every byte as the only one of a name that may not be portable: at each place, in a name that is missing or exists.

use super::{asked, is_portable, Asked, Fate, Rows, Step, Walk, REFUSED};
use crate::cases::trees::for_names::THREE;
use crate::model::numbers::{BAD_REQUEST, ENOENT, ENOTDIR};
use std::ops::Range;

/// What becomes of a file that is renamed to a name of three bytes, with the counts. A slash parts the name in two, of
/// which neither exists: the second one alone is looked for, or the first is passed through, or stands before a slash.
fn fate(byte: u8, at: usize, rows: u8) -> (Fate, [u16; 2]) {
    match (byte, at) {
        (0, _) => (Walk(BAD_REQUEST), [0, 0]),
        (b'/', 0) => (Rows(7), [2, 2]),
        (b'/', 1) => (Walk(ENOENT), [2, 2]),
        (b'/', _) => (Step(ENOTDIR), [2, 2]),
        _ if is_portable(&[byte]) => (Rows(rows), [2, 2]),
        _ => (REFUSED, [2, 2]),
    }
}

fn with_byte(name: &[u8; 3], at: usize, byte: u8) -> Vec<u8> {
    let mut path = [b"/n/", &name[..]].concat();
    path[3 + at] = byte;
    path
}

fn every_byte_at(places: Range<usize>) -> impl Iterator<Item = (u8, usize)> {
    (0..=255).flat_map(move |byte| places.clone().map(move |at| (byte, at)))
}

pub fn of_missing_names(places: Range<usize>) -> Vec<Asked> {
    let missing = |(byte, at)| {
        let (fate, steps) = fate(byte, at, 7);
        asked("bytes of a missing name", b"/p/f", &with_byte(b"uvw", at, byte), fate, steps)
    };
    every_byte_at(places).map(missing).collect()
}

/// The image has the same name, which two of the bytes cannot be in.
pub fn of_existing_names() -> Vec<Asked> {
    let existing = |(byte, at)| {
        let (fate, steps) = fate(byte, at, 8);
        let it = asked("bytes of an existing name", b"/p/f", &with_byte(b"mno", at, byte), fate, steps);
        match byte {
            0 | b'/' => it,
            _ => it.with_byte(THREE, at, byte),
        }
    };
    every_byte_at(0..3).map(existing).collect()
}
