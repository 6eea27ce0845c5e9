//! Callers who are let pass nowhere, though they own something else, are in a group, or have nearly the owner's number.

use super::Role::{self, From, Into, Moved, Replaced};
use super::{scene, two_of_the_renames, CALLER, RENAMES};
use crate::cases::rename::RenameCases;
use crate::cases::trees::for_renames::{GROUP, OWNER};
use crate::model::numbers::EPERM;
use crate::model::permission::Credentials;

const CLASS: &str = "nearly exempt";

/// The sticky directory, and what the caller owns on the other side.
const OTHER_SIDE: [(Role, &[Role]); 6] = [
    (From, &[Replaced]),
    (From, &[Into]),
    (From, &[Into, Replaced]),
    (Into, &[Moved]),
    (Into, &[From]),
    (Into, &[From, Moved]),
];

fn owners_of_others() -> RenameCases {
    let mut cases = vec![];
    for (turn, (sticky, owned)) in OTHER_SIDE.into_iter().enumerate() {
        for (old, new, _) in two_of_the_renames(turn) {
            cases.push(scene(old, new).sticky(&[sticky]).owned_by(CALLER, owned).refused(CLASS, EPERM));
        }
    }
    for (sticky, above) in [(From, "/w"), (From, "/"), (Into, "/w"), (Into, "/")] {
        // The symlink that is replaced leads to the directory above, which is asked for nothing.
        let mut scene = scene("/w/p/f", "/w/q/klink").sticky(&[sticky]);
        scene.at(above).owner = CALLER;
        cases.push(scene.refused(CLASS, EPERM));
    }
    cases
}

/// The effective group and further ones: those of the tree, and ones that have the owner's number.
const GROUPS: [(u32, &[u32]); 6] = [
    (GROUP, &[]),
    (OWNER, &[]),
    (0, &[]),
    (CALLER, &[GROUP]),
    (CALLER, &[1001, OWNER, GROUP, 0]),
    (GROUP, &[OWNER; 16]),
];

fn members() -> RenameCases {
    let mut cases = vec![];
    for (turn, (group, further)) in GROUPS.into_iter().enumerate() {
        for sticky in [From, Into] {
            let (old, new, _) = RENAMES[turn];
            let who = Credentials { further: further.to_vec(), ..Credentials::new(CALLER, group) };
            cases.push(scene(old, new).sticky(&[sticky]).by(who).refused(CLASS, EPERM));
        }
    }
    for (sticky, role) in [(From, From), (From, Moved), (Into, Into), (Into, Replaced)] {
        // The group has the number of the user.
        let mut scene = scene("/w/p/f", "/w/q/file").sticky(&[sticky]);
        scene.inode(role).group = CALLER;
        cases.push(scene.refused(CLASS, EPERM));
    }
    cases
}

/// Users whose numbers differ from the owner's, or from the superuser's, in one byte or in the order of the bytes.
const USERS: [u32; 8] =
    [OWNER + 1, OWNER + 256, OWNER + 65_536, OWNER | 1 << 31, OWNER.swap_bytes(), 256, 65_536, 1 << 24];

fn similar_users() -> RenameCases {
    let mut cases = vec![];
    for (turn, user) in USERS.into_iter().enumerate() {
        for sticky in [From, Into] {
            let (old, new, _) = RENAMES[turn % RENAMES.len()];
            cases.push(scene(old, new).sticky(&[sticky]).by(Credentials::new(user, CALLER)).refused(CLASS, EPERM));
        }
    }
    cases
}

pub fn cases() -> RenameCases {
    [owners_of_others(), members(), similar_users()].concat()
}
