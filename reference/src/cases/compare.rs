//! Pairs of names for the compare, each with its answer told by the lengths and the place of the first difference.

pub mod differences;
pub mod lengths;
pub mod part;
pub mod places;
pub mod random_pairs;
pub mod values;

use crate::model::compare::Compared;
use crate::vectors::Comparing;

/// The longest name of an image.
const LONGEST: usize = 24;

#[derive(Clone)]
pub struct CompareCase {
    class: &'static str,
    names: Comparing,
    told: Compared,
}

fn case(class: &'static str, [first, second]: [&[u8]; 2], same: bool, pieces: usize) -> CompareCase {
    let names = Comparing { first: first.to_vec(), second: second.to_vec() };
    CompareCase { class, names, told: Compared { same, pieces } }
}

/// A name beside itself: all pieces are read, the last of which may be short.
fn same(class: &'static str, name: &[u8]) -> CompareCase {
    case(class, [name, name], true, name.len().div_ceil(8))
}

/// Names of one length whose first difference is at a place counted from 0.
fn differ(class: &'static str, names: [&[u8]; 2], at: usize) -> CompareCase {
    case(class, names, false, at / 8 + 1)
}

/// Names of two lengths: nothing is read.
fn differ_in_length(class: &'static str, names: [&[u8]; 2]) -> CompareCase {
    case(class, names, false, 0)
}

/// A name of letters, in which no two whole pieces are alike up to 104 bytes: each is told from the others.
fn letters(len: usize) -> Vec<u8> {
    (0..len).map(|at| b'a' + ((at + len) % 26) as u8).collect()
}

/// The same bytes but for those at some places.
fn changed(name: &[u8], places: impl IntoIterator<Item = usize>, change: impl Fn(u8) -> u8) -> Vec<u8> {
    let mut other = name.to_vec();
    places.into_iter().for_each(|at| other[at] = change(other[at]));
    other
}

/// The places of each piece of a name.
fn pieces(len: usize) -> impl Iterator<Item = std::ops::Range<usize>> {
    (0..len).step_by(8).map(move |start| start..len.min(start + 8))
}
