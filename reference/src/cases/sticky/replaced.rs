//! What the new name leads to: nothing, which the sticky bit does not keep, or an inode of any kind, which it does.

use super::Role::{From, Into, Moved, Replaced};
use super::{scene, CALLER};
use crate::cases::rename::RenameCases;
use crate::model::numbers::EPERM;

/// Names that are free in the new directory, some of them nearly those that are not.
const FREE: [(&str, &str); 7] = [
    ("/w/p/f", "/w/q/new"),
    ("/w/p/l", "/w/q/new"),
    ("/w/p/s", "/w/q/new"),
    ("/w/p/d", "/w/q/new/"),
    ("/w/p/f", "/w/q/fil"),
    ("/w/p/l", "/w/q/file2"),
    ("/w/p/s", "/w/q/Empty"),
];

fn nothing() -> RenameCases {
    let class = "nothing replaced";
    let mut cases = vec![];
    for (old, new) in FREE {
        cases.push(scene(old, new).sticky(&[Into]).planned(class, 7));
        cases.push(scene(old, new).sticky(&[From, Into]).owned_by(CALLER, &[Moved]).planned(class, 7));
        cases.push(scene(old, new).sticky(&[From, Into]).refused(class, EPERM));
    }
    for (old, new) in [("/w/p/f", "/w/p/new"), ("/w/p/s", "/w/p/new/")] {
        cases.push(scene(old, new).sticky(&[Into]).owned_by(CALLER, &[Moved]).planned(class, 6));
        cases.push(scene(old, new).sticky(&[Into]).refused(class, EPERM));
    }
    cases
}

/// Everything that may replace something else, with the rows.
const KINDS: [(&str, &str, u8); 12] = [
    ("/w/p/f", "/w/q/file", 8),
    ("/w/p/f", "/w/q/kept", 8),
    ("/w/p/f", "/w/q/link", 9),
    ("/w/p/f", "/w/q/klink", 8),
    ("/w/p/l", "/w/q/file", 8),
    ("/w/p/l", "/w/q/kept", 8),
    ("/w/p/l", "/w/q/link", 9),
    ("/w/p/l", "/w/q/klink", 8),
    ("/w/p/s", "/w/q/empty", 8),
    ("/w/p/s", "/w/q/empty/", 8),
    ("/w/p/d", "/w/q/empty", 8),
    ("/w/p/d/", "/w/q/empty/", 8),
];

/// The moved inode is the caller's in every case, which is of no use on this side.
fn every_kind() -> RenameCases {
    let class = "kinds of replaced";
    let mut cases = vec![];
    for (old, new, rows) in KINDS {
        let kept = || scene(old, new).sticky(&[Into]).owned_by(CALLER, &[Moved]);
        cases.push(kept().refused(class, EPERM));
        cases.push(kept().owned_by(CALLER, &[Replaced]).planned(class, rows));
    }
    cases
}

pub fn cases() -> RenameCases {
    [nothing(), every_kind()].concat()
}
