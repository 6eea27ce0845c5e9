//! Which of the two directories are sticky, and on which side the caller owns something.

use super::Role::{self, From, Into, Moved, Replaced};
use super::{scene, two_of_the_renames, CALLER, RENAMES};
use crate::cases::rename::{RenameCase, RenameCases};
use crate::model::numbers::{DONE, EPERM};

/// Sticky directories, what the caller owns, and the number.
const SIDES: [(&[Role], &[Role], u8); 10] = [
    (&[], &[], DONE),
    (&[From], &[], EPERM),
    (&[Into], &[], EPERM),
    (&[From, Into], &[], EPERM),
    // The old side lets the caller pass, and the new one does not.
    (&[From, Into], &[Moved], EPERM),
    (&[From, Into], &[From], EPERM),
    (&[From, Into], &[From, Moved], EPERM),
    // The other way round.
    (&[From, Into], &[Replaced], EPERM),
    (&[From, Into], &[Into], EPERM),
    (&[From, Into], &[Into, Replaced], EPERM),
];

fn by_sides() -> RenameCases {
    let mut cases = vec![];
    for (turn, (sticky, owned, number)) in SIDES.into_iter().enumerate() {
        for (old, new, rows) in two_of_the_renames(turn) {
            let scene = scene(old, new).sticky(sticky).owned_by(CALLER, owned);
            cases.push(scene.told("one side and both", number, if number == DONE { rows } else { 0 }));
        }
    }
    cases
}

/// Both directories are sticky, and the caller owns any of the four inodes: one of each side is enough, and needed.
fn by_owned(owned: usize) -> RenameCase {
    let (old, new, rows) = RENAMES[owned % RENAMES.len()];
    let roles: Vec<Role> = (0..)
        .zip([From, Moved, Into, Replaced])
        .filter(|(bit, _)| owned >> bit & 1 == 1)
        .map(|(_, role)| role)
        .collect();
    let may_take = roles.contains(&From) || roles.contains(&Moved);
    let may_replace = roles.contains(&Into) || roles.contains(&Replaced);
    let scene = scene(old, new).sticky(&[From, Into]).owned_by(CALLER, &roles);
    match may_take && may_replace {
        true => scene.planned("any of four owned", rows),
        false => scene.refused("any of four owned", EPERM),
    }
}

pub fn cases() -> RenameCases {
    let mut cases = by_sides();
    cases.extend((0..16).map(by_owned));
    cases
}
