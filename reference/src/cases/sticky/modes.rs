//! Mode bits that are not the sticky one, and sticky bits of inodes that are not asked.

use super::Role::{From, Into};
use super::{scene, RENAMES};
use crate::cases::rename::RenameCases;
use crate::model::numbers::EPERM;

const CLASS: &str = "other bits";

/// Modes that let everybody write and search, and whether the sticky bit is among the rest.
const MODES: [(u16, bool); 10] = [
    (0o777, false),
    (0o1777, true),
    (0o2777, false),
    (0o3777, true),
    (0o4777, false),
    (0o5777, true),
    (0o6777, false),
    (0o7777, true),
    (0o003, false),
    (0o1003, true),
];

/// The mode of one side, while the other has every bit but the sticky one.
fn of_one_side() -> RenameCases {
    let mut cases = vec![];
    for (turn, (mode, sticky)) in MODES.into_iter().enumerate() {
        for role in [From, Into] {
            let (old, new, rows) = RENAMES[turn % RENAMES.len()];
            let mut scene = scene(old, new).mode("/w/p", 0o6777).mode("/w/q", 0o6777);
            scene.inode(role).mode = mode;
            cases.push(if sticky { scene.refused(CLASS, EPERM) } else { scene.planned(CLASS, rows) });
        }
    }
    cases
}

/// Inodes whose sticky bit no rename asks: moved, replaced, what is above both directories.
const NOT_ASKED: [(&str, &str, &[&str], u8); 8] = [
    ("/w/p/s", "/w/q/empty", &["/w/p/s"], 8),
    ("/w/p/s", "/w/q/empty", &["/w/q/empty"], 8),
    ("/w/p/f", "/w/q/file", &["/w/p/f"], 8),
    ("/w/p/f", "/w/q/file", &["/w/q/file"], 8),
    ("/w/p/f", "/w/q/link", &["/w/q/link"], 9),
    ("/w/p/f", "/w/q/file", &["/w"], 8),
    ("/w/p/f", "/w/q/file", &["/"], 8),
    ("/w/p/s", "/w/q/empty", &["/", "/w", "/w/p/s", "/w/q/empty", "/w/p/d", "/w/q/full"], 8),
];

pub fn cases() -> RenameCases {
    let mut cases = of_one_side();
    for (old, new, sticky, rows) in NOT_ASKED {
        let scene = sticky.iter().fold(scene(old, new), |scene, path| scene.mode(path, 0o1777));
        cases.push(scene.planned(CLASS, rows));
    }
    cases
}
