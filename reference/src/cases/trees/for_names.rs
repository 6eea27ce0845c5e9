//! A small consistent tree for names: portable ones and others, to be moved, replaced and passed through.

use crate::cases::trees::builder::{Entry, Handle, Inode, Tree};
use crate::cases::trees::for_renames::{GROUP, OWNER};
use crate::model::image::{DIRECTORY, FILE, SYMLINK};

/// The directory of the old names, and that of the new ones.
pub const P: u16 = 1;
pub const N: u16 = 2;
/// A file with three names, one of which is not portable.
const F: u16 = 3;
const SPACED: u16 = 4;
const FULL: u16 = 5;

/// Slots of two names that cases change a byte of: one of three bytes and one of the longest.
pub const THREE: usize = 0;
pub const LONGEST: usize = 1;

/// Handles by number: one on the directory of the new names, and one on it that is opened for search.
pub const CLOSED: u8 = 0;
pub const ON_N: u8 = 1;
pub const SEARCH_N: u8 = 2;

const LINKS: [(u16, &[u8], &[u8]); 8] = [
    (P, b"l", b"nowhere"),
    (N, b"e:f", b"nothing at all"),
    (N, b"lnk", b"a b"),
    (0, b"rel", b"n"),
    (0, b"abs", b"/n"),
    (0, b"to\xe4", b"/x y"),
    (0, b"loop", b"loop"),
    (SPACED, b"up", b"../n/"),
];

/// Files and directories; those whose numbers count stand first.
const OTHERS: [(u8, u16, &[u8]); 15] = [
    (DIRECTORY, 0, b"p"),
    (DIRECTORY, 0, b"n"),
    (FILE, P, b"f"),
    (DIRECTORY, 0, b"x y"),
    (DIRECTORY, N, b"g,h"),
    (FILE, FULL, b"in"),
    (DIRECTORY, P, b"s"),
    (FILE, P, b"old name"),
    (DIRECTORY, P, b"old\xffdir"),
    (FILE, N, b"mno"),
    (FILE, N, b"abcdefghijklmnopqrstuvwx"),
    (FILE, N, b"a b"),
    (DIRECTORY, N, b"dir"),
    (DIRECTORY, N, b"c+d"),
    (DIRECTORY, SPACED, b"z"),
];

fn inode(kind: u8, field: u16) -> Inode {
    let (owner, group) = (OWNER, GROUP);
    Inode { kind, file_system: 0, mode: 0o777, owner, group, links: 0, field, modified: 1000, changed: 2000 }
}

pub fn names_tree() -> Tree {
    let mut tree = Tree { inodes: vec![inode(DIRECTORY, 0)], ..Tree::default() };
    let mut name = |inode: Inode, parent: u16, name: &[u8]| {
        tree.inodes.push(inode);
        tree.entries.push(Entry::new(parent, tree.inodes.len() as u16 - 1, name));
    };
    OTHERS.into_iter().for_each(|(kind, parent, bytes)| name(inode(kind, 0), parent, bytes));
    (0..).zip(LINKS).for_each(|(text, (parent, bytes, _))| name(inode(SYMLINK, text), parent, bytes));
    tree.texts = LINKS.map(|(.., text)| text.to_vec()).to_vec();
    tree.entries.extend([Entry::new(N, F, b"f~"), Entry::default(), Entry::new(N, F, b"f2"), Entry::default()]);
    for (slot, wanted) in [(THREE, &b"mno"[..]), (LONGEST, b"abcdefghijklmnopqrstuvwx")] {
        let now = tree.entries.iter().position(|entry| entry.name == wanted).expect("the name is there");
        tree.entries.swap(slot, now);
    }
    tree.handles = [(0, 0), (1, N), (2, N)].map(|(state, inode)| Handle { state, inode }).to_vec();
    tree.recount();
    tree
}

#[cfg(test)]
mod tests {
    use super::*;
    use crate::model::check::check;
    use crate::model::numbers::DONE;

    /// Names that no rename may make are no fault of an image.
    #[test]
    fn the_tree_is_consistent() {
        let tree = names_tree();
        assert_eq!(check(&tree.encode()), DONE);
        let is_portable = |byte: &u8| byte.is_ascii_alphanumeric() || b"._-".contains(byte);
        assert!(tree.entries.iter().filter(|entry| !entry.name.iter().all(is_portable)).count() >= 9);
    }
}
