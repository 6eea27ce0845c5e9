//! Names that differ in one byte, whose value or whose neighbours a careless reading would take for another's.

use super::{changed, differ, letters, pieces, CompareCase, LONGEST};

/// A whole number of pieces, and one whose last piece is short.
const LENGTHS: [usize; 2] = [LONGEST, 20];

/// High and low bytes that differ in the highest bit alone or lie side by side, where signed numbers are far apart, or
/// that are one byte once a bit is lost.
const HIGH_AND_LOW: [[u8; 2]; 8] =
    [[128, 0], [255, 127], [128, 127], [255, 0], [129, 1], [200, 72], [195, 67], [254, 2]];

/// The first place of each piece, one in its middle and the last.
fn ends_and_middles(len: usize) -> impl Iterator<Item = usize> {
    pieces(len).flat_map(|piece| [piece.start, (piece.start + piece.end) / 2, piece.end - 1])
}

fn single_bits() -> Vec<CompareCase> {
    let mut cases = vec![];
    for len in LENGTHS {
        for (at, bit) in ends_and_middles(len).flat_map(|at| (0..8).map(move |bit| (at, bit))) {
            let name = letters(len);
            cases.push(differ("single bits", [&name, &changed(&name, [at], |byte| byte ^ (1 << bit))], at));
        }
    }
    cases
}

/// Either byte on either side, in names of one byte and at both ends of each piece.
fn high_against_low() -> Vec<CompareCase> {
    let mut cases = vec![];
    for [high, low] in HIGH_AND_LOW {
        cases.push(differ("high against low", [&[high], &[low]], 0));
        cases.push(differ("high against low", [&[low], &[high]], 0));
        for at in pieces(LONGEST).flat_map(|piece| [piece.start, piece.end - 1]) {
            let [with_high, with_low] = [high, low].map(|byte| changed(&letters(LONGEST), [at], |_| byte));
            let names = if at % 8 == 0 { [&with_high[..], &with_low] } else { [&with_low[..], &with_high] };
            cases.push(differ("high against low", names, at));
        }
    }
    cases
}

/// Both names have nothing but one byte, and one of them another somewhere. A high byte that is read as a signed number
/// would spread over its neighbours and hide it; a zero byte would end a text ahead of it.
fn among_equal_bytes() -> Vec<CompareCase> {
    let mut cases = vec![];
    for (class, byte, other) in [("among high bytes", 255, 254), ("among high bytes", 128, 1), ("among zeros", 0, 1)] {
        for at in 0..LONGEST {
            let name = [byte; LONGEST];
            cases.push(differ(class, [&name, &changed(&name, [at], |_| other)], at));
        }
    }
    cases
}

/// A zero byte in both names, and the difference behind it: right behind, at the piece's end and at the name's.
fn behind_a_zero() -> Vec<CompareCase> {
    let mut cases = vec![];
    for zero in 0..LONGEST - 1 {
        let name = changed(&letters(LONGEST), [zero], |_| 0);
        let mut places = vec![zero + 1, zero / 8 * 8 + 7, LONGEST - 1];
        places.retain(|&at| at > zero);
        places.dedup();
        cases.extend(places.into_iter().map(|at| {
            let other = changed(&name, [at], |byte| byte ^ 3);
            differ("behind a zero byte", [&name, &other], at)
        }));
    }
    cases
}

pub fn cases() -> Vec<CompareCase> {
    [single_bits(), high_against_low(), among_equal_bytes(), behind_a_zero()].concat()
}
