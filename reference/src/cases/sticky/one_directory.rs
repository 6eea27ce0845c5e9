//! Both names in one sticky directory, in which the two inodes have different owners.

use super::Role::{From, Moved, Replaced};
use super::{scene, Scene};
use crate::cases::rename::{RenameCase, RenameCases, Told};
use crate::model::numbers::{DONE, EPERM};
use crate::model::permission::{Credentials, SUPERUSER};

const CLASS: &str = "one directory";

const MOVED_OWNER: u32 = 201;
const REPLACED_OWNER: u32 = 202;
const DIRECTORY_OWNER: u32 = 203;
const NOBODY: u32 = 204;

const RENAMES: [(&str, &str, u8); 5] = [
    ("/w/p/f", "/w/p/file", 7),
    ("/w/p/l", "/w/p/link", 8),
    ("/w/p/f", "/w/p/klink", 7),
    ("/w/p/s", "/w/p/empty", 7),
    ("/w/p/kept", "/w/p/file", 7),
];

const CALLERS: [(u32, u8); 5] =
    [(MOVED_OWNER, EPERM), (REPLACED_OWNER, EPERM), (NOBODY, EPERM), (DIRECTORY_OWNER, DONE), (SUPERUSER, DONE)];

fn three_owners(old: &'static str, new: &'static str) -> Scene {
    let owned = scene(old, new).sticky(&[From]).owned_by(DIRECTORY_OWNER, &[From]);
    owned.owned_by(MOVED_OWNER, &[Moved]).owned_by(REPLACED_OWNER, &[Replaced])
}

fn of_rename((old, new, rows): (&'static str, &'static str, u8)) -> RenameCases {
    let by = |user: u32| three_owners(old, new).by(Credentials::new(user, NOBODY));
    let told = |(user, number): (u32, u8)| by(user).told(CLASS, number, if number == DONE { rows } else { 0 });
    let mut cases = CALLERS.map(told).to_vec();
    cases.push(by(MOVED_OWNER).owned_by(MOVED_OWNER, &[Replaced]).planned(CLASS, rows));
    cases
}

/// Ways to one directory by which it looks like two, with the components of each.
const WAYS: [(&str, &str, [u16; 2]); 3] =
    [("/w/p/f", "/w/q/../p/file", [3, 5]), ("/lp/f", "/w/p/file", [4, 3]), ("/w/p/../p/f", "/lp/./file", [5, 5])];

/// The owner of moved alone is refused by the new side, whichever way it is come to.
fn another_way(old: &'static str, new: &'static str, steps: [u16; 2]) -> [RenameCase; 2] {
    let by = |user: u32, told: Told| {
        let mut scene = three_owners("/w/p/f", "/w/p/file").by(Credentials::new(user, NOBODY));
        (scene.old, scene.new) = (old, new);
        scene.told_as(CLASS, told)
    };
    let refused = Told { number: EPERM, rows: 0, steps: Some(steps) };
    let planned = Told { number: DONE, rows: 7, steps: Some(steps) };
    [by(MOVED_OWNER, refused), by(DIRECTORY_OWNER, planned)]
}

pub fn cases() -> RenameCases {
    let straight = RENAMES.into_iter().flat_map(of_rename);
    straight.chain(WAYS.into_iter().flat_map(|(old, new, steps)| another_way(old, new, steps))).collect()
}
