//! The compare of two names by pieces of eight bytes, and how many of them it reads.
//!
//! A lookup (rule 45) and the search for duplicates ask only whether two names are the same, and the model compares
//! whole names there: how much of them is read is a second answer, which has its definition here.

/// The bytes of a piece, but for the last one, which is as short as the name leaves it.
const PIECE: usize = 8;

#[derive(Clone, Copy, Debug, PartialEq, Eq)]
pub struct Compared {
    pub same: bool,
    /// None where the lengths differ, else up to and with the first piece that differs, or all.
    pub pieces: usize,
}

pub fn compare(first: &[u8], second: &[u8]) -> Compared {
    if first.len() != second.len() {
        return Compared { same: false, pieces: 0 };
    }
    let mut pieces = 0;
    for (one, other) in first.chunks(PIECE).zip(second.chunks(PIECE)) {
        pieces += 1;
        if one != other {
            return Compared { same: false, pieces };
        }
    }
    Compared { same: true, pieces }
}
