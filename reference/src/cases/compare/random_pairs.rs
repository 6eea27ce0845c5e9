//! Random names of one length with a common beginning.

use super::{differ, same, CompareCase, LONGEST};
use crate::cases::random::Random;

const PAIRS: usize = 360;

/// Every fourth pair is longer than the names of an image.
const LONGEST_HERE: usize = 80;

/// Bytes of every value, or of few, so that pieces are alike and bytes behind a difference are the same again.
fn random_byte(few: bool, random: &mut Random) -> u8 {
    if few {
        *random.pick(b"\0a\x80\xff")
    } else {
        random.byte()
    }
}

fn pair(number: usize, random: &mut Random) -> CompareCase {
    let len = 1 + random.below(if number % 4 == 3 { LONGEST_HERE } else { LONGEST });
    let few = random.one_in(2);
    let mut bytes = || (0..len).map(|_| random_byte(few, random)).collect::<Vec<u8>>();
    let (first, mut second) = (bytes(), bytes());
    let common = random.below(len + 1);
    second[..common].copy_from_slice(&first[..common]);
    if common == len {
        return same("random, nothing differs", &first);
    }
    second[common] = first[common] ^ (1 + random.below(255) as u8);
    differ("random pairs", [&first, &second], common)
}

pub fn cases(random: &mut Random) -> Vec<CompareCase> {
    (0..PAIRS).map(|number| pair(number, random)).collect()
}
