//! Group numbers of every size and nearly equal ones, and lists in which a number stands more than once.

use super::{asked, others, stranger, with, STRANGER};
use crate::cases::rename::RenameCases;
use crate::cases::trees::for_renames::{GROUP, OWNER};

const NUMBERS: [u32; 10] = [0, 1, 50, 255, 256, 65_535, 65_536, 1 << 31, u32::MAX - 1, u32::MAX];

/// Numbers that differ from one in a bit, by one, or in the order of their bytes.
fn near(number: u32) -> Vec<u32> {
    let mut near: Vec<u32> = [0, 7, 8, 15, 16, 24, 31].map(|bit| number ^ 1 << bit).to_vec();
    near.extend([number.wrapping_add(1), number.wrapping_sub(1), number.swap_bytes(), !number]);
    near.retain(|&other| other != number);
    near
}

fn of_every_size() -> RenameCases {
    let mut cases = vec![];
    for number in NUMBERS {
        let near = near(number);
        cases.extend(asked("group numbers", number, &stranger(&[&near[..], &[number]].concat()), true));
        cases.extend(asked("group numbers", number, &stranger(&near), false));
    }
    cases
}

/// A list that has ended holds no zeros, and a list's length is no group.
fn behind_the_end() -> RenameCases {
    let mut cases = asked("behind the list's end", 0, &stranger(&[]), false).to_vec();
    for count in [1, 8, 15, 16] {
        cases.extend(asked("behind the list's end", 0, &stranger(&others(count)), false));
        cases.extend(asked("behind the list's end", count as u32, &stranger(&others(count)), false));
    }
    cases.extend(asked("behind the list's end", 0, &with(STRANGER, 0, &[]), true));
    cases.extend(asked("behind the list's end", 0, &with(STRANGER, 0, &others(3)), true));
    cases.extend(asked("behind the list's end", u32::MAX, &stranger(&[]), false));
    cases
}

/// Lists with the effective group for each, and whether the tree's group is among them.
const REPEATED: [(u32, &[u32], bool); 9] = [
    (STRANGER, &[GROUP, GROUP], true),
    (STRANGER, &[1001, 1001, GROUP, 1001, GROUP], true),
    (STRANGER, &[GROUP; 16], true),
    (GROUP, &[GROUP], true),
    (GROUP, &[GROUP; 16], true),
    (STRANGER, &[STRANGER, GROUP], true),
    (STRANGER, &[STRANGER], false),
    (STRANGER, &[STRANGER; 16], false),
    (OWNER, &[OWNER, OWNER, 1001], false),
];

pub fn cases() -> RenameCases {
    let of_repeated = |(group, further, is_in)| asked("repeated groups", GROUP, &with(STRANGER, group, further), is_in);
    [of_every_size(), behind_the_end(), REPEATED.map(of_repeated).concat()].concat()
}
