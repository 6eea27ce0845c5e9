//! Renames whose paths lead through forty symlinks and are planned, and through one more and are not.

use super::chains::chain;
use super::lengths::longest;
use super::pairs::single;
use super::MOST;
use crate::cases::rename::refused_walks::renamed;
use crate::cases::rename::{RenameCase, RenameCases, Told, NOW};
use crate::cases::trees::for_links::link_tree;
use crate::cases::trees::for_walks::{GROUP, OWNER};
use crate::cases::walk::probes::joined;
use crate::model::numbers::{DONE, ELOOP};
use crate::model::permission::Credentials;
use crate::model::request::{Operand, Request, CURRENT};

/// A way through so many symlinks to root, the steps that forty take, and the one at which one more is found.
struct Way {
    through: fn(usize) -> Vec<u8>,
    steps: u16,
    refused_at: u16,
}

const WAYS: [Way; 4] = [
    Way { through: |symlinks| joined(&[("here/", symlinks)]), steps: 80, refused_at: 81 },
    Way { through: |symlinks| joined(&[("root/", symlinks)]), steps: 40, refused_at: 41 },
    Way { through: |symlinks| format!("/{}/../", chain(symlinks)).into_bytes(), steps: 42, refused_at: 41 },
    Way { through: |symlinks| joined(&[("t4/", 1), ("o/", symlinks - 31)]), steps: 65, refused_at: 66 },
];

/// What stands behind the symlinks, and its steps.
type Rest = (&'static str, u16);

/// The ends of old and new, and the rows of the rename.
const RENAMES: [([Rest; 2], u8); 7] = [
    ([("f", 1), ("x/new", 2)], 7),
    ([("f", 1), ("new", 1)], 6),
    ([("d", 1), ("x", 1)], 7),
    ([("d/e/", 2), ("x/", 1)], 8),
    ([("here", 1), ("x/new", 2)], 7),
    ([("loop", 1), ("gone", 1)], 8),
    ([("d/here", 2), ("c01", 1)], 9),
];

/// The answer of a rename by two ways of which each leads through so many symlinks.
fn told(ways: [&Way; 2], symlinks: [usize; 2], rests: [Rest; 2], rows: u8) -> Told {
    let counts = |side: usize| match symlinks[side] > MOST {
        true => ways[side].refused_at,
        false => ways[side].steps + rests[side].1,
    };
    let refused = |steps: [u16; 2]| Told { number: ELOOP, rows: 0, steps: Some(steps) };
    match symlinks.map(|count| count > MOST) {
        [true, _] => refused([counts(0), 0]),
        [_, true] => refused([counts(0), counts(1)]),
        _ => Told { number: DONE, rows, steps: Some([counts(0), counts(1)]) },
    }
}

fn case(class: &'static str, [old, new]: [Vec<u8>; 2], told: Told) -> RenameCase {
    let operand = |path: Vec<u8>| Operand { start: CURRENT, path };
    let request =
        Request { who: Credentials::new(OWNER, GROUP), current: 0, flags: 0, old: operand(old), new: operand(new) };
    RenameCase { class, image: link_tree().encode(), buffer: None, request, now: NOW, told: Some(told) }
}

/// Every two ways, with forty symlinks on both sides and with one more on either and on both; the renames take turns.
fn by_two_ways() -> RenameCases {
    let mut cases = vec![];
    for (turn, [i, j]) in (0..WAYS.len()).flat_map(|i| (0..WAYS.len()).map(move |j| [i, j])).enumerate() {
        let (rests, rows) = RENAMES[turn % RENAMES.len()];
        let ways = [&WAYS[i], &WAYS[j]];
        for symlinks in [[MOST, MOST], [MOST + 1, MOST], [MOST, MOST + 1], [MOST + 1, MOST + 1]] {
            let path = |side: usize| [(ways[side].through)(symlinks[side]), rests[side].0.into()].concat();
            let told = told(ways, symlinks, rests, rows);
            let class = if told.number == DONE { "forty in both paths" } else { "one more in either path" };
            cases.push(case(class, [path(0), path(1)], told));
        }
    }
    cases
}

/// The greatest counts, on both sides of one request.
fn longest_both() -> RenameCases {
    let planned = |rows: u8, last: [&str; 2]| {
        let told = Told { number: DONE, rows, steps: Some([1408, 1408]) };
        case("longest walks", last.map(longest), told)
    };
    vec![planned(6, ["f", "y"]), planned(8, ["f", "o"]), planned(0, ["f", "f"]), planned(7, ["d", "x"])]
}

/// Every path that is walked alone, as old and as new in turn.
fn walks() -> RenameCases {
    let in_turn = single().into_iter().enumerate().filter(|(i, _)| i % 4 == 0 || i % 4 == 3);
    in_turn.map(|(_, case)| renamed("walks as renames", case)).collect()
}

pub fn cases() -> RenameCases {
    [by_two_ways(), longest_both(), walks()].concat()
}
