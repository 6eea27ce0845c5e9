//! Step 6 of an exchange: the sticky bit on each side, with every set of the four owners.

use super::{by, straight, BETWEEN, EXCHANGE, WITHIN};
use crate::cases::rename::{RenameCase, RenameCases};
use crate::cases::trees::for_renames::{inode_at, rename_tree};
use crate::model::numbers::{DONE, EPERM};

const CLASS: &str = "sticky bit";

/// Who owns nothing but what a case gives.
const CALLER: u32 = 200;
const STICKY: u16 = 0o1000;

/// Exchanges from /w/p into /w/q, of every two kinds in turn.
const PAIRS: [(&str, &str); 6] = [
    ("/w/p/f", "/w/q/file"),
    ("/w/p/l", "/w/q/empty"),
    ("/w/p/d", "/w/q/kept"),
    ("/w/p/s", "/w/q/full"),
    ("/w/p/f", "/w/q/klink"),
    ("/w/p/d", "/w/q/empty"),
];

/// Sticky and owned are bits: from, into; from, moved, into, replaced.
fn between(turn: usize, sticky: usize, owned: usize) -> RenameCase {
    let (old, new) = PAIRS[turn % PAIRS.len()];
    let has = |set: usize, bit: usize| set >> bit & 1 == 1;
    let mut tree = rename_tree();
    let inodes = ["/w/p", old, "/w/q", new].map(|path| usize::from(inode_at(&tree, path)));
    for (_, inode) in inodes.into_iter().enumerate().filter(|(bit, _)| has(owned, *bit)) {
        tree.inodes[inode].owner = CALLER;
    }
    for (_, inode) in [(0, inodes[0]), (1, inodes[2])].into_iter().filter(|(bit, _)| has(sticky, *bit)) {
        tree.inodes[inode].mode |= STICKY;
    }
    let old_side = has(sticky, 0) && !has(owned, 0) && !has(owned, 1);
    let new_side = has(sticky, 1) && !has(owned, 2) && !has(owned, 3);
    let (number, rows) = if old_side || new_side { (EPERM, 0) } else { (DONE, BETWEEN) };
    by(CALLER, straight(CLASS, &tree, EXCHANGE, (old, new), number, rows))
}

/// In one directory both inodes are asked for: one of them owned is not enough, the directory is.
fn within() -> RenameCases {
    let mut cases = vec![];
    for owned in 0..8 {
        let mut tree = rename_tree();
        let inodes = ["/w/p", "/w/p/f", "/w/p/s"].map(|path| usize::from(inode_at(&tree, path)));
        tree.inodes[inodes[0]].mode |= STICKY;
        let owned: Vec<usize> = (0..3).filter(|bit| owned >> bit & 1 == 1).collect();
        owned.iter().for_each(|&which| tree.inodes[inodes[which]].owner = CALLER);
        let passes = owned.contains(&0) || owned.contains(&1) && owned.contains(&2);
        let (number, rows) = if passes { (DONE, WITHIN) } else { (EPERM, 0) };
        for paths in [("/w/p/f", "/w/p/s"), ("/w/p/s", "/w/p/f")] {
            cases.push(by(CALLER, straight(CLASS, &tree, EXCHANGE, paths, number, rows)));
        }
    }
    cases
}

pub fn cases() -> RenameCases {
    let sets = (1..4).flat_map(|sticky| (0..16).map(move |owned| (sticky, owned)));
    let between = sets.enumerate().map(|(turn, (sticky, owned))| between(turn, sticky, owned));
    between.chain(within()).collect()
}
