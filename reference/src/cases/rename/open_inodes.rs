//! What is open, or the current directory, while it is moved, replaced or written to.

use super::{case, request, RenameCases, Told};
use crate::cases::trees::builder::{Handle, Tree};
use crate::cases::trees::for_renames::{inode_at, rename_tree, CLOSED};
use crate::model::numbers::{EBUSY, EISDIR, ENOTEMPTY};

const CLASS: &str = "open and current";

/// An inode in use, and a rename that would free it.
const FREED: [(&str, &str, &str); 6] = [
    ("/w/q/file", "/w/p/f", "/w/q/file"),
    ("/w/q/link", "/w/p/f", "/w/q/link"),
    ("/w/p/link", "/w/p/l", "/w/p/link"),
    ("/w/q/empty", "/w/p/s", "/w/q/empty"),
    ("/w/p/empty", "/w/p/d", "/w/p/empty/"),
    ("/w/p/d/wide/n58", "/w/p/s", "/w/p/d/wide/n58"),
];

/// An inode in use, a rename that this does not keep from its answer, and its number and rows.
const KEPT: [(&str, &str, &str, u8, u8); 14] = [
    ("/w/q/kept", "/w/p/f", "/w/q/kept", 0, 8),
    ("/w/q/klink", "/w/p/f", "/w/q/klink", 0, 8),
    ("/w/p/f", "/w/p/f", "/w/q/file", 0, 8),
    ("/w/p/s", "/w/p/s", "/w/q/empty", 0, 8),
    ("/w/p/l", "/w/p/l", "/w/q/new", 0, 7),
    ("/w/q/empty", "/w/p/s", "/w/q/new", 0, 7),
    ("/w/q/empty", "/w/q/empty", "/w/p/new", 0, 7),
    ("/w/p", "/w/p/f", "/w/q/link", 0, 9),
    ("/w/q", "/w/p/f", "/w/q/link", 0, 9),
    ("/", "/w/p/f", "/w/q/file", 0, 8),
    ("/w/p/f", "/w/p/f", "/w/q/pf", 0, 0),
    ("/w/p/s", "/w/p/s", "/w/p/s", 0, 0),
    ("/w/q/full", "/w/p/s", "/w/q/full", ENOTEMPTY, 0),
    ("/w/q/empty", "/w/p/f", "/w/q/empty", EISDIR, 0),
];

/// Ways in which an inode is in use: a handle of either state, in either closed place, or in both.
fn opened(tree: &Tree, path: &str) -> Vec<Tree> {
    let inode = inode_at(tree, path);
    let open = |places: &[(usize, u8)]| {
        let mut tree = tree.clone();
        places.iter().for_each(|&(place, state)| tree.handles[place] = Handle { state, inode });
        tree
    };
    let [first, last] = CLOSED;
    vec![
        open(&[(first, 1)]),
        open(&[(first, 2)]),
        open(&[(last, 1)]),
        open(&[(last, 2)]),
        open(&[(first, 2), (last, 1)]),
    ]
}

pub fn cases() -> RenameCases {
    let tree = rename_tree();
    let freed = FREED.map(|(used, old, new)| (used, old, new, EBUSY, 0));
    let mut cases = vec![];
    for (used, old, new, number, rows) in freed.into_iter().chain(KEPT) {
        let told = Told { number, rows, steps: None };
        cases.extend(opened(&tree, used).iter().map(|tree| case(CLASS, tree, request(old, new), told)));
        if tree.directories().contains(&inode_at(&tree, used)) {
            let mut request = request(old, new);
            request.current = inode_at(&tree, used);
            cases.push(case(CLASS, &tree, request, told));
        }
    }
    cases
}
