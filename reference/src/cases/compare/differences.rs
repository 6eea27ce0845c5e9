//! Names with several differences, of which the first counts: bytes that changed places, and pieces that differ.

use super::{changed, differ, letters, pieces, CompareCase, LONGEST};
use std::collections::BTreeSet;

/// Every two bytes of each piece, so that the bytes of both pieces are the same but for their order.
fn swapped_bytes() -> Vec<CompareCase> {
    let mut cases = vec![];
    for len in [LONGEST, 13] {
        for piece in pieces(len) {
            for (one, other) in piece.clone().flat_map(|one| (one + 1..piece.end).map(move |other| (one, other))) {
                let name = letters(len);
                let mut swapped = name.clone();
                swapped.swap(one, other);
                cases.push(differ("swapped bytes", [&name, &swapped], one));
            }
        }
    }
    cases
}

/// A piece the other way round, as another order of bytes would read it, and every two whole pieces in each other's
/// place.
fn moved_bytes() -> Vec<CompareCase> {
    let mut cases = vec![];
    for len in [2, 8, 11, 16, 20, LONGEST, 29] {
        let name = letters(len);
        for piece in pieces(len) {
            let mut reversed = name.clone();
            reversed[piece.clone()].reverse();
            cases.push(differ("reversed pieces", [&name, &reversed], piece.start));
        }
    }
    for len in [16, 21, LONGEST, 32, 37] {
        for (one, other) in two_of(len / 8) {
            let name = letters(len);
            let mut swapped = name.clone();
            (0..8).for_each(|at| swapped.swap(8 * one + at, 8 * other + at));
            cases.push(differ("swapped pieces", [&name, &swapped], 8 * one));
        }
    }
    cases
}

/// Every two of so many, the earlier one first.
fn two_of(count: usize) -> impl Iterator<Item = (usize, usize)> {
    (0..count).flat_map(move |one| (one + 1..count).map(move |other| (one, other)))
}

/// One byte each of every two pieces, first or last, in the same bits, so that they are nothing if taken together.
fn two_pieces() -> Vec<CompareCase> {
    let mut cases = vec![];
    for len in [9, 16, LONGEST, 25, 40] {
        let all: Vec<_> = pieces(len).collect();
        for (one, other) in two_of(all.len()) {
            let (one, other) = (&all[one], &all[other]);
            let ends = [(one.start, other.start), (one.end - 1, other.start), (one.start, other.end - 1)];
            for (at, behind) in BTreeSet::from(ends) {
                let name = letters(len);
                let both = changed(&name, [at, behind], |byte| byte ^ 5);
                cases.push(differ("two pieces differ", [&name, &both], at));
            }
        }
    }
    cases
}

/// The first byte of a piece is one higher and its last one lower, so that either would come first in some order.
fn both_ends() -> Vec<CompareCase> {
    let mut cases = vec![];
    for len in 2..=LONGEST {
        for piece in pieces(len).filter(|piece| piece.len() > 1) {
            let name = letters(len);
            let first = changed(&name, [piece.start], |byte| byte + 1);
            let both = changed(&first, [piece.end - 1], |byte| byte - 1);
            cases.push(differ("both ends of a piece", [&name, &both], piece.start));
        }
    }
    cases
}

pub fn cases() -> Vec<CompareCase> {
    [swapped_bytes(), moved_bytes(), two_pieces(), both_ends()].concat()
}
