//! A consistent tree for paths through many symlinks: every text is in use, by chains, loops and texts that name several.

use super::for_walks::{GROUP, OWNER};
use crate::cases::trees::builder::{Entry, Handle, Inode, Tree};
use crate::model::image::{DIRECTORY, FILE, SYMLINK};

const ROOT: u16 = 0;
const D: u16 = 1;
const E: u16 = 2;
const X: u16 = 3;
const F: u16 = 4;
const PRIVATE: u16 = 5;
const FIRST_SYMLINK: u16 = 6;

/// Handles by number.
pub const ON_D: u8 = 1;
pub const SEARCH_D: u8 = 2;

/// The chain `c01` to `c41`, of which each names the next and the last one names `d`.
const CHAIN: usize = 41;

/// The other symlinks, all of them in root, and their texts. The first has more names than one.
const SYMLINKS: [(&str, &str); 21] = [
    ("here", "."),
    ("o", "."),
    ("root", "/"),
    ("t1", "here/here"),
    ("t2", "t1/t1"),
    ("t3", "t2/t2"),
    ("t4", "t3/t3"),
    ("t5", "t4/t4"),
    ("many", "/here//root/t1//"),
    ("loop", "loop"),
    ("ping", "pong"),
    ("pong", "/ping"),
    ("slow", "./slow"),
    ("round", "d/../round"),
    ("enter", "here/here/loop"),
    ("g", "g/xxxx"),
    ("swell", "swell/nnnnnnnn"),
    ("tofile", "f"),
    ("gone", "nowhere"),
    ("private", "p"),
    ("toolong", "ccccccccccccccccccccccccc"),
];

fn inode(kind: u8, field: u16) -> Inode {
    Inode { kind, file_system: 0, mode: 0o755, owner: OWNER, group: GROUP, links: 0, field, modified: 1, changed: 2 }
}

/// All of them, with two texts of 32 components. Every fourth text of the chain begins with a slash; its last one has
/// slashes behind, which make it longer than the others and lead nowhere else.
fn symlinks() -> Vec<(Vec<u8>, Vec<u8>)> {
    let mut symlinks = SYMLINKS.map(|(name, text)| (name.into(), text.into())).to_vec();
    for number in 1..=CHAIN {
        let slash = if number % 4 == 0 { "/" } else { "" };
        let text = if number == CHAIN { "d////".to_string() } else { format!("{slash}c{:02}", number + 1) };
        symlinks.push((format!("c{number:02}").into(), text.into()));
    }
    symlinks.push((b"wide".to_vec(), [b"./".repeat(31), b"d".to_vec()].concat()));
    symlinks.push((b"w".to_vec(), [b"./".repeat(31), b".".to_vec()].concat()));
    symlinks
}

/// Two slots are free.
fn entries() -> Vec<Entry> {
    vec![
        Entry::new(ROOT, D, b"d"),
        Entry::new(D, E, b"e"),
        Entry::new(ROOT, X, b"x"),
        Entry::new(ROOT, F, b"f"),
        Entry::new(D, F, b"f"),
        Entry::new(E, F, b"f"),
        Entry::new(ROOT, PRIVATE, b"p"),
        Entry::default(),
        Entry::new(D, FIRST_SYMLINK, b"here"),
        Entry::new(PRIVATE, FIRST_SYMLINK, b"here"),
        Entry::default(),
    ]
}

pub fn link_tree() -> Tree {
    let states = [(0, 0), (1, D), (2, D)];
    let mut tree = Tree {
        inodes: vec![inode(DIRECTORY, 0); usize::from(FIRST_SYMLINK)],
        entries: entries(),
        texts: vec![],
        handles: states.map(|(state, inode)| Handle { state, inode }).to_vec(),
    };
    tree.inodes[usize::from(F)] = inode(FILE, 0);
    tree.inodes[usize::from(PRIVATE)] = Inode { mode: 0o700, owner: 200, group: 200, ..inode(DIRECTORY, 0) };
    for (name, text) in symlinks() {
        tree.add_symlink(ROOT, &name, text, inode(SYMLINK, 0));
    }
    tree.recount();
    tree
}

#[cfg(test)]
mod tests {
    use super::*;
    use crate::model::check::check;
    use crate::model::layout::{SECTIONS, TEXTS};
    use crate::model::numbers::DONE;

    #[test]
    fn the_tree_is_consistent_and_has_every_text() {
        assert_eq!(check(&link_tree().encode()), DONE);
        assert_eq!(link_tree().texts.len(), *SECTIONS[TEXTS].counts.end());
    }
}
