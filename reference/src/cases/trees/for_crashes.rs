//! A small consistent tree for crashes: in one directory something of every kind to move, in two to replace.

use crate::cases::trees::builder::{Entry, Handle, Inode, Tree};
use crate::model::image::{DIRECTORY, FILE, SYMLINK};

/// Who owns all of the tree, and when all of it was written.
pub const OWNER: u32 = 100;
pub const TIME: u64 = 100;

fn inode(kind: u8, field: u16) -> Inode {
    let file_system = 0;
    Inode { kind, file_system, mode: 0o755, owner: OWNER, group: OWNER, links: 0, field, modified: TIME, changed: TIME }
}

/// A file and a symlink with one name each, a file and a symlink with two, and an empty directory.
fn targets(first_text: u16) -> [Inode; 5] {
    [inode(FILE, 0), inode(FILE, 0), inode(SYMLINK, first_text), inode(SYMLINK, first_text + 1), inode(DIRECTORY, 0)]
}

fn entries_of_targets(directory: u16, first: u16) -> [Entry; 7] {
    let names = [(b"x", 0), (b"g", 1), (b"h", 1), (b"y", 2), (b"m", 3), (b"n", 3), (b"e", 4)];
    names.map(|(name, which)| Entry::new(directory, first + which, name))
}

pub fn crash_tree() -> Tree {
    let mut inodes = vec![
        inode(DIRECTORY, 0), // root
        inode(DIRECTORY, 0), // p
        inode(DIRECTORY, 0), // q
        inode(FILE, 0),      // p/f
        inode(SYMLINK, 0),   // p/l
        inode(DIRECTORY, 0), // p/d
        inode(DIRECTORY, 0), // p/d/c
    ];
    inodes.extend(targets(1));
    inodes.extend(targets(4));
    let mut entries = vec![
        Entry::new(0, 1, b"p"),
        Entry::new(0, 2, b"q"),
        Entry::new(1, 3, b"f"),
        Entry::default(),
        Entry::new(1, 4, b"l"),
        Entry::new(1, 5, b"d"),
        Entry::new(5, 6, b"c"),
    ];
    entries.extend(entries_of_targets(1, 7));
    entries.extend(entries_of_targets(2, 12));
    entries.push(Entry::default());
    let texts: [&[u8]; 6] = [b"d", b"a", b"b", b"", b"c", b"x"];
    let handles = [(0, 0), (1, 1)].map(|(state, inode)| Handle { state, inode }).to_vec();
    let mut tree = Tree { inodes, entries, texts: texts.map(<[u8]>::to_vec).to_vec(), handles };
    tree.recount();
    tree
}

/// Old names, one or more of each kind, all in one directory.
pub const OLD: [&str; 5] = ["/p/f", "/p/g", "/p/l", "/p/m", "/p/d"];

/// New names, one of each kind and one that is free, in that directory and in the other.
pub const NEW: [&str; 12] =
    ["/p/new", "/p/x", "/p/h", "/p/y", "/p/n", "/p/e", "/q/new", "/q/x", "/q/g", "/q/y", "/q/m", "/q/e"];

#[cfg(test)]
mod tests {
    use super::*;
    use crate::model::check::check;
    use crate::model::numbers::DONE;

    #[test]
    fn the_tree_is_consistent() {
        assert_eq!(check(&crash_tree().encode()), DONE);
    }
}
