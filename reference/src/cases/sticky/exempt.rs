//! Who may rename in spite of a sticky bit: the owner of the inode, the owner of the directory, the superuser.

use super::Role::{self, From, Into, Moved, Replaced};
use super::{scene, two_of_the_renames, CALLER, RENAMES};
use crate::cases::rename::RenameCases;
use crate::cases::trees::for_renames::{GROUP, OWNER};
use crate::model::permission::{Credentials, SUPERUSER};

const CLASS: &str = "exempt";

/// Sticky directories, and what the caller owns: each exemption alone on each side, then one for each side.
const OWNED: [(&[Role], &[Role]); 9] = [
    (&[From], &[Moved]),
    (&[From], &[From]),
    (&[Into], &[Replaced]),
    (&[Into], &[Into]),
    (&[From, Into], &[Moved, Replaced]),
    (&[From, Into], &[Moved, Into]),
    (&[From, Into], &[From, Replaced]),
    (&[From, Into], &[From, Into]),
    (&[From, Into], &[From, Moved, Into, Replaced]),
];

fn owners() -> RenameCases {
    let mut cases = vec![];
    for (turn, (sticky, owned)) in OWNED.into_iter().enumerate() {
        for (old, new, rows) in two_of_the_renames(turn) {
            cases.push(scene(old, new).sticky(sticky).owned_by(CALLER, owned).planned(CLASS, rows));
        }
    }
    cases
}

/// Neither needs to be in any group; nothing of the superuser's is asked for.
fn superuser_and_owner_of_all() -> RenameCases {
    let sticky: [&[Role]; 3] = [&[From], &[Into], &[From, Into]];
    let users = [(SUPERUSER, 0), (SUPERUSER, GROUP), (OWNER, CALLER)];
    let mut cases = vec![];
    for (i, sticky) in sticky.into_iter().enumerate() {
        for (j, (user, group)) in users.into_iter().enumerate() {
            let (old, new, rows) = RENAMES[(i + j) % RENAMES.len()];
            cases.push(scene(old, new).sticky(sticky).by(Credentials::new(user, group)).planned(CLASS, rows));
        }
    }
    cases
}

pub fn cases() -> RenameCases {
    [owners(), superuser_and_owner_of_all()].concat()
}
