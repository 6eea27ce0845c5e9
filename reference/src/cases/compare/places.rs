//! Names of one length that differ from some place on, or nowhere.

use super::{changed, differ, letters, same, CompareCase, LONGEST};
use std::collections::BTreeSet;

/// Longer than any name of an image, on both sides of a whole number of pieces.
const LONG: [usize; 8] = [25, 32, 33, 40, 48, 63, 64, MOST];

/// As long as the format allows.
const MOST: usize = 255;

fn next(byte: u8) -> u8 {
    byte + 1
}

/// One byte differs, and then all of them from there on, which is one case at the last place. The longest names have
/// the second kind only where a piece begins, lest they fill the file.
fn first_at(len: usize, at: usize) -> Vec<CompareCase> {
    let name = letters(len);
    let mut cases = vec![differ("one byte differs", [&name, &changed(&name, [at], next)], at)];
    if at + 1 < len && (len < MOST || at % 8 == 0) {
        cases.push(differ("all from one byte on", [&name, &changed(&name, at..len, next)], at));
    }
    cases
}

/// The first place, the last, and those on both sides of each beginning of a piece.
fn chosen_places(len: usize) -> BTreeSet<usize> {
    let around = (8..len).step_by(8).flat_map(|start| [start - 1, start]);
    around.chain([0, len - 1]).collect()
}

fn nothing_differs() -> impl Iterator<Item = CompareCase> {
    (0..=LONGEST).chain(LONG).map(|len| same("nothing differs", &letters(len)))
}

pub fn cases() -> Vec<CompareCase> {
    let short = (1..=LONGEST).flat_map(|len| (0..len).map(move |at| (len, at)));
    let long = LONG.into_iter().flat_map(|len| chosen_places(len).into_iter().map(move |at| (len, at)));
    nothing_differs().chain(short.chain(long).flat_map(|(len, at)| first_at(len, at))).collect()
}
