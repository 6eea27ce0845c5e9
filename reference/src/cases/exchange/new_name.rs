//! Whether new exists: it must not with no-replace, and must with exchange. Both are asked behind both walks and ahead of
//! every step.

use super::{straight, BETWEEN, EXCHANGE, NO_REPLACE};
use crate::cases::rename::RenameCases;
use crate::cases::trees::builder::{Entry, Tree};
use crate::cases::trees::for_renames::{inode_at, rename_tree, rename_tree_with, FREE_SLOT};
use crate::model::numbers::{DONE, EEXIST, EINVAL, EISDIR, EMLINK, ENOENT, ENOSPC, ENOTDIR, EROFS, EXDEV};

const ONE_INODE: &str = "two names of one file";
const ORDER: &str = "ahead of the steps";

/// Two names of one inode, or one name twice.
const SAME: [(&str, &str); 8] = [
    ("/w/p/f", "/w/p/f2"),
    ("/w/p/f", "/w/q/pf"),
    ("/w/q/pl", "/w/p/l"),
    ("/w/p/l", "/w/p/l2"),
    ("/w/p/s", "/w/p/s"),
    ("/w/p/d/", "/w/p/d/"),
    ("/r/p/f", "/r/q/pf"),
    ("/w/p/m", "/w/p/m"),
];

/// No-replace refuses them, and exchange, as a rename does, has nothing to do, wherever they are.
fn one_inode() -> RenameCases {
    let mut cases = vec![];
    for paths in SAME {
        cases.push(straight(ONE_INODE, &rename_tree(), NO_REPLACE, paths, EEXIST, 0));
        cases.push(straight(ONE_INODE, &rename_tree(), EXCHANGE, paths, DONE, 0));
        cases.push(straight(ONE_INODE, &rename_tree_with("/w/p", 0o555), EXCHANGE, paths, DONE, 0));
        cases.push(straight(ONE_INODE, &rename_tree(), 0, paths, DONE, 0));
    }
    for new in ["/w/p/f2/", "/w/q/pf//"] {
        cases.extend([0, 1, 2].map(|flags| straight(ONE_INODE, &rename_tree(), flags, ("/w/p/f", new), ENOTDIR, 0)));
    }
    cases
}

/// The tree without a free slot.
fn full() -> Tree {
    let mut tree = rename_tree();
    let [directory, kept] = ["/w/q", "/w/q/kept"].map(|path| inode_at(&tree, path));
    tree.entries[FREE_SLOT] = Entry::new(directory, kept, b"z");
    tree.recount();
    tree
}

/// Renames that a step refuses, with what is answered: by no flag and by no-replace, then by exchange.
const REFUSED: [(&str, &str, u8, u8); 10] = [
    ("/r/p/f", "/r/q/new", EROFS, ENOENT),
    ("/w/p/f", "/r/q/new", EROFS, ENOENT),
    ("/w/p/f", "/o/q/new", EXDEV, ENOENT),
    ("/w/p/d", "/w/p/d/new", EINVAL, ENOENT),
    ("/w/p/d", "/w/p/d/e/new", EINVAL, ENOENT),
    ("/w/p/f", "/w/q/new/", ENOTDIR, ENOENT),
    ("/w/p/l", "/w/q/new//", ENOTDIR, ENOENT),
    ("/w/p/s", "/w/p/d/wide/new", EMLINK, ENOENT),
    ("/w/p/f", "/w/q/empty", EISDIR, DONE),
    ("/w/p/s", "/w/q/file", ENOTDIR, DONE),
];

fn ahead_of_the_steps() -> RenameCases {
    let mut cases = vec![];
    for (old, new, renamed, exchanged) in REFUSED {
        let exists = exchanged == DONE;
        let lines = [
            (0, renamed, 0),
            (NO_REPLACE, if exists { EEXIST } else { renamed }, 0),
            (EXCHANGE, exchanged, if exists { BETWEEN } else { 0 }),
        ];
        cases.extend(
            lines.map(|(flags, number, rows)| straight(ORDER, &rename_tree(), flags, (old, new), number, rows)),
        );
    }
    cases
}

/// A free slot is asked for by who makes a name, and by nobody else.
fn slots() -> RenameCases {
    let tree = full();
    let lines = [
        (0, "/w/q/new", ENOSPC, 0),
        (NO_REPLACE, "/w/q/new", ENOSPC, 0),
        (EXCHANGE, "/w/q/new", ENOENT, 0),
        (0, "/w/q/file", DONE, 8),
        (NO_REPLACE, "/w/q/file", EEXIST, 0),
        (EXCHANGE, "/w/q/file", DONE, 8),
        (EXCHANGE, "/w/p/s", DONE, 7),
    ];
    lines.map(|(flags, new, number, rows)| straight(ORDER, &tree, flags, ("/w/p/f", new), number, rows)).to_vec()
}

/// New names that are missing, with every kind of moved: no-replace is a rename.
fn missing() -> RenameCases {
    let class = "no-replace, new is missing";
    let lines = [
        ("/w/p/f", "/w/p/new", 6),
        ("/w/p/f", "/w/q/new", 7),
        ("/w/p/l", "/w/q/new", 7),
        ("/w/p/s", "/w/q/new/", 7),
        ("/w/p/d/", "/w/q/new", 7),
        ("/w/q/kept", "/w/p/d/e/new", 7),
    ];
    let flags = [0, NO_REPLACE];
    let all = lines.iter().flat_map(|line| flags.map(|flags| (line, flags)));
    all.map(|((old, new, rows), flags)| straight(class, &rename_tree(), flags, (old, new), DONE, *rows)).collect()
}

pub fn cases() -> RenameCases {
    [one_inode(), ahead_of_the_steps(), slots(), missing()].concat()
}
