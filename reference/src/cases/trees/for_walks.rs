//! A consistent tree for walks: symlinks of every kind, a private directory, handles of every state.

use crate::cases::trees::builder::{Entry, Handle, Inode, Tree};
use crate::model::image::{DIRECTORY, FILE, SYMLINK};

/// Who owns all of the tree but its private directory.
pub const OWNER: u32 = 100;
pub const GROUP: u32 = 50;

pub const LONGEST_NAME: &[u8; 24] = b"nnnnnnnnnnnnnnnnnnnnnnnn";

/// The directories and the file by number, as the walks' own tables name them.
pub const ROOT: u16 = 0;
pub const D: u16 = 1;
pub const E: u16 = 2;
pub const X: u16 = 3;
pub const DX: u16 = 4;
pub const F: u16 = 5;
pub const LONG: u16 = 6;
pub const PRIVATE: u16 = 7;
pub const PQ: u16 = 8;
/// Never used.
pub const VACANT: u16 = 9;
const FIRST_SYMLINK: u16 = 10;

/// Handles by number.
pub const CLOSED: u8 = 0;
pub const ON_D: u8 = 1;
pub const SEARCH_D: u8 = 2;
pub const ON_PRIVATE: u8 = 3;
pub const SEARCH_PRIVATE: u8 = 4;
pub const ON_FILE: u8 = 5;
pub const SEARCH_FILE: u8 = 6;
pub const SEARCH_SYMLINK: u8 = 7;
pub const ON_ROOT: u8 = 8;
pub const SEARCH_ROOT: u8 = 9;
pub const HANDLES: u8 = 10;

fn inode(kind: u8, field: u16) -> Inode {
    Inode { kind, file_system: 0, mode: 0o755, owner: OWNER, group: GROUP, links: 0, field, modified: 1, changed: 2 }
}

/// Symlinks: the directory that holds each, its name and its text.
const SYMLINKS: [(u16, &str, &str); 30] = [
    (ROOT, "h", "x"),
    (ROOT, "s", "d"),
    (ROOT, "abs", "/d/e"),
    (ROOT, "many", "//d///e//"),
    (E, "up", ".."),
    (ROOT, "here", "."),
    (ROOT, "root", "/"),
    (ROOT, "roots", "///"),
    (ROOT, "gone", "nowhere"),
    (ROOT, "tofile", "f"),
    (ROOT, "tofiles", "f/"),
    (ROOT, "absfile", "/f"),
    (ROOT, "toolong", "ccccccccccccccccccccccccc"),
    (ROOT, "loop", "loop"),
    (ROOT, "ping", "pong"),
    (ROOT, "pong", "/ping"),
    (ROOT, "c8", "c9"),
    (ROOT, "c9", "d"),
    (ROOT, "dd", "d/"),
    (ROOT, "z", "d/"),
    (ROOT, "climb", "../../../d"),
    (ROOT, "two", "s/h"),
    (ROOT, "via", "wide"),
    (ROOT, "private", "p"),
    (ROOT, "through", "p/q"),
    (PRIVATE, "k", "q"),
    (PRIVATE, "ka", "/d"),
    (PRIVATE, "ku", ".."),
    (D, "dots", "e/.."),
    (D, "tox", "../x/"),
];

/// All of them, with a chain in which c1 takes nine to follow, and two texts of 32 components.
fn symlinks() -> Vec<(u16, Vec<u8>, Vec<u8>)> {
    let told = SYMLINKS.map(|(directory, name, text)| (directory, name.into(), text.into()));
    let mut symlinks = told.to_vec();
    symlinks.extend((1..8).map(|i| (ROOT, format!("c{i}").into(), format!("c{}", i + 1).into())));
    symlinks.push((ROOT, b"wide".to_vec(), [b"./".repeat(31), b"d".to_vec()].concat()));
    symlinks.push((ROOT, b"w".to_vec(), [b"./".repeat(31), b".".to_vec()].concat()));
    symlinks
}

fn entries() -> Vec<Entry> {
    vec![
        Entry::new(ROOT, D, b"d"),
        Entry::new(D, E, b"e"),
        Entry::new(ROOT, X, b"x"),
        Entry::new(D, DX, b"x"),
        Entry::new(ROOT, F, b"f"),
        Entry::new(D, F, b"f"),
        Entry::new(E, F, b"f"),
        Entry::new(ROOT, LONG, LONGEST_NAME),
        Entry::new(LONG, F, LONGEST_NAME),
        Entry::new(ROOT, PRIVATE, b"p"),
        Entry::new(PRIVATE, F, b"f"),
        Entry::new(PRIVATE, PQ, b"q"),
        Entry::default(),
        Entry::new(D, FIRST_SYMLINK, b"h"), // a second name of /h, with another x beside it
    ]
}

fn handles() -> Vec<Handle> {
    let symlink = FIRST_SYMLINK + 1;
    let open = [(0, 0), (1, D), (2, D), (1, PRIVATE), (2, PRIVATE), (1, F), (2, F), (2, symlink), (1, ROOT), (2, ROOT)];
    open.map(|(state, inode)| Handle { state, inode }).to_vec()
}

pub fn walk_tree() -> Tree {
    let mut tree = Tree {
        inodes: vec![inode(DIRECTORY, 0); usize::from(FIRST_SYMLINK)],
        entries: entries(),
        texts: vec![],
        handles: handles(),
    };
    tree.inodes[usize::from(F)] = inode(FILE, 0);
    tree.inodes[usize::from(VACANT)] = Inode::default();
    tree.inodes[usize::from(PRIVATE)] = Inode { mode: 0o700, owner: 200, group: 200, ..inode(DIRECTORY, 0) };
    for (directory, name, text) in symlinks() {
        tree.add_symlink(directory, &name, text, inode(SYMLINK, 0));
    }
    tree.recount();
    tree
}

#[cfg(test)]
mod tests {
    use super::*;
    use crate::model::check::check;
    use crate::model::numbers::DONE;

    #[test]
    fn the_tree_is_consistent() {
        assert_eq!(check(&walk_tree().encode()), DONE);
        assert_eq!(walk_tree().handles.len(), usize::from(HANDLES));
    }
}
