//! Step 12 of an exchange: a directory that comes into another parent in the place of something else, at 63 links and 64.

use super::{straight, BETWEEN, EXCHANGE, WITHIN};
use crate::cases::rename::{RenameCase, RenameCases};
use crate::cases::trees::builder::{Entry, Tree};
use crate::cases::trees::for_renames::{inode_at, rename_tree};
use crate::model::numbers::{DONE, EMLINK};

const CLASS: &str = "link counts";

/// The directory /w/p/d/wide has 64 links; with one of its subdirectories in /w/q instead it has 63.
fn with_63_links() -> Tree {
    let mut tree = rename_tree();
    let [wide, q] = ["/w/p/d/wide", "/w/q"].map(|path| inode_at(&tree, path));
    let slot = tree.entries.iter().position(|entry| entry.parent == wide && entry.name == b"n0");
    tree.entries[slot.expect("the name is there")].parent = q;
    tree.recount();
    assert_eq!(tree.inodes[usize::from(wide)].links, 63);
    tree
}

/// Both parents of an exchange have 64 links: /w/q too gets as many subdirectories as it may.
fn with_two_wide() -> Tree {
    let mut tree = rename_tree();
    let [empty, q] = ["/w/q/empty", "/w/q"].map(|path| inode_at(&tree, path));
    let left = 64 - tree.inodes[usize::from(q)].links;
    for number in 0..left {
        tree.inodes.push(tree.inodes[usize::from(empty)].clone());
        let inode = tree.inodes.len() as u16 - 1;
        tree.entries.push(Entry::new(q, inode, format!("m{number}").as_bytes()));
    }
    tree.recount();
    tree
}

/// Either way round.
fn both_ways(tree: &Tree, (one, other): (&str, &str), number: u8, rows: u8) -> [RenameCase; 2] {
    [(one, other), (other, one)].map(|paths| straight(CLASS, tree, EXCHANGE, paths, number, rows))
}

pub fn cases() -> RenameCases {
    let (at_64, at_63) = (rename_tree(), with_63_links());
    let mut cases = vec![];
    for directory in ["/w/p/s", "/w/q/full", "/w/p/d/empty"] {
        for other in ["file", "kept", "link", "klink"] {
            let other = format!("/w/p/d/wide/{other}");
            cases.extend(both_ways(&at_64, (directory, &other), EMLINK, 0));
            cases.extend(both_ways(&at_63, (directory, &other), DONE, BETWEEN));
        }
        // A directory for a directory changes no count, and what is lost makes room.
        for (other, rows) in [("/w/p/d/wide/empty", BETWEEN), ("/w/p/d/wide/n7/", BETWEEN)] {
            cases.extend(both_ways(&at_64, (directory, other), DONE, rows));
        }
    }
    for (one, other, rows) in [
        ("/w/p/f", "/w/p/d/wide/empty", BETWEEN),
        ("/w/q/link", "/w/p/d/wide/n58", BETWEEN),
        ("/w/p/f", "/w/p/d/wide/file", BETWEEN),
        ("/w/p/d/wide/n1", "/w/p/d/wide/file", WITHIN),
        ("/w/p/d/wide/full", "/w/p/d/wide/klink", WITHIN),
        ("/w/p/d/wide/n1", "/w/p/d/wide/n2", WITHIN),
    ] {
        cases.extend(both_ways(&at_64, (one, other), DONE, rows));
    }
    cases
}

/// On a tree of its own, since it has more inodes.
pub fn in_two_wide() -> (Tree, RenameCases) {
    let tree = with_two_wide();
    let lines = [
        ("/w/q/m0", "/w/p/d/wide/file", EMLINK, 0),
        ("/w/q/file", "/w/p/d/wide/n1", EMLINK, 0),
        ("/w/q/m1", "/w/p/d/wide/n1", DONE, BETWEEN),
        ("/w/q/link", "/w/p/d/wide/link", DONE, BETWEEN),
        ("/w/p/s", "/w/q/kept", EMLINK, 0),
        ("/w/p/f", "/w/q/m2", DONE, BETWEEN),
        ("/w/q/m3", "/w/q/kept", DONE, WITHIN),
    ];
    let of = |(one, other, number, rows)| both_ways(&tree, (one, other), number, rows);
    let cases = lines.into_iter().flat_map(of).collect();
    (tree, cases)
}
