//! Names of two lengths, the one being as near to the other as may be.

use super::{differ_in_length, letters, CompareCase, LONGEST};
use std::collections::BTreeSet;

/// A name of so many bytes and its beginning, which takes turns in being the first.
fn beginning(fewer: usize, len: usize) -> CompareCase {
    let name = letters(len);
    let names = if (fewer + len) % 2 == 0 { [&name[..fewer], &name] } else { [&name, &name[..fewer]] };
    differ_in_length("the other's beginning", names)
}

fn empty(len: usize) -> [CompareCase; 2] {
    let name = letters(len);
    [[&name[..], &[]], [&[], &name]].map(|names| differ_in_length("an empty one", names))
}

/// A name and the same one with zero bytes behind it, as it stands in an image.
fn zeros_behind(fewer: usize, len: usize) -> [CompareCase; 2] {
    let name = letters(fewer);
    let mut padded = name.clone();
    padded.resize(len, 0);
    [[&name[..], &padded], [&padded, &name]].map(|names| differ_in_length("zero bytes behind", names))
}

/// One byte more, all of the last piece, one piece more, and the whole field of an image.
fn padded_lengths(len: usize) -> BTreeSet<usize> {
    let whole = len.next_multiple_of(8);
    [len + 1, whole, whole + 8, LONGEST].into_iter().filter(|&padded| padded > len).collect()
}

pub fn cases() -> Vec<CompareCase> {
    let empty = [1, 8, 24, 255].into_iter().flat_map(empty);
    let pairs = (1..=LONGEST).flat_map(|len| (1..len).map(move |fewer| (fewer, len)));
    let begun = pairs.map(|(fewer, len)| beginning(fewer, len));
    let padded = (0..=LONGEST).flat_map(|fewer| padded_lengths(fewer).into_iter().map(move |len| (fewer, len)));
    let padded = padded.flat_map(|(fewer, len)| zeros_behind(fewer, len));
    empty.chain(begun).chain(padded).collect()
}
