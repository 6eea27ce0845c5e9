//! Consistent trees made by hand, each at some edge of the rules.

use crate::cases::trees::builder::{Entry, Handle, Inode, Tree};
use crate::model::image::{DIRECTORY, FILE, SYMLINK};

fn inode(kind: u8, file_system: u8, field: u16) -> Inode {
    Inode { kind, file_system, mode: 0o644, owner: 7, group: 8, links: 0, field, modified: 1000, changed: 2000 }
}

fn recounted(mut tree: Tree) -> Tree {
    tree.recount();
    tree
}

/// Root alone, and no other record but the journal's.
pub fn minimal() -> Tree {
    recounted(Tree { inodes: vec![inode(DIRECTORY, 0, 0)], ..Tree::default() })
}

/// Root alone among as many free records as an image can hold.
pub fn vacant() -> Tree {
    let mut tree = minimal();
    tree.inodes.resize(512, Inode::default());
    tree.entries.resize(1024, Entry::default());
    tree.texts.resize(64, vec![]);
    tree.handles.resize(16, Handle::default());
    tree
}

/// A small tree with each kind of record in each of its states, used and free side by side.
pub fn every_state() -> Tree {
    let mut texts = vec![vec![]; 5];
    texts[1] = b"a".to_vec();
    texts[3] = vec![b'x'; 63];
    let handles = [(0, 0), (1, 4), (2, 1), (0, 0), (1, 7), (2, 14)];
    recounted(Tree {
        inodes: every_state_inodes(),
        entries: every_state_entries(),
        texts,
        handles: handles.map(|(state, inode)| Handle { state, inode }).to_vec(),
    })
}

fn every_state_inodes() -> Vec<Inode> {
    let mut inodes = vec![Inode::default(); 15];
    inodes[0] = inode(DIRECTORY, 0, 0);
    inodes[1] = inode(DIRECTORY, 0, 0); // a
    inodes[2] = inode(DIRECTORY, 0, 0); // a/b
    inodes[3] = inode(DIRECTORY, 0, 0); // a/b/c
    inodes[4] = inode(FILE, 0, 0); // f, a/f and a/b/...
    inodes[6] = inode(FILE, 0, 0); // in a/b, with the longest name
    inodes[7] = inode(SYMLINK, 0, 1); // l and a/l
    inodes[9] = inode(SYMLINK, 0, 3); // a/k
    inodes[10] = inode(DIRECTORY, 200, 0); // m, of another file system
    inodes[11] = inode(FILE, 200, 0); // m/f and m/g
    inodes[12] = inode(DIRECTORY, 0, 0); // e
    inodes[14] = inode(DIRECTORY, 200, 0); // m/d
    inodes
}

fn every_state_entries() -> Vec<Entry> {
    let mut entries = vec![Entry::default(); 20];
    entries[0] = Entry::new(0, 4, b"f");
    entries[1] = Entry::new(0, 1, b"a");
    entries[2] = Entry::new(1, 2, b"b");
    entries[4] = Entry::new(2, 3, b"c");
    entries[5] = Entry::new(1, 4, b"f");
    entries[6] = Entry::new(2, 4, b"...");
    entries[7] = Entry::new(2, 6, b"nnnnnnnnnnnnnnnnnnnnnnnn");
    entries[8] = Entry::new(0, 7, b"l");
    entries[10] = Entry::new(1, 7, b"l");
    entries[11] = Entry::new(1, 9, b"k");
    entries[12] = Entry::new(0, 10, b"m");
    entries[13] = Entry::new(10, 11, b"f");
    entries[14] = Entry::new(10, 11, b"g");
    entries[16] = Entry::new(10, 14, b"d");
    entries[19] = Entry::new(0, 12, b"e");
    entries
}

/// A file and a symlink with as many names as the link count allows, and free slots for more.
pub fn many_names() -> Tree {
    let mut entries: Vec<Entry> = (0..64).map(|i| Entry::new(0, 1, &[b'f', 48 + i])).collect();
    entries.extend((0..64).map(|i| Entry::new(0, 3, &[b'l', 48 + i])));
    entries.extend([Entry::default(), Entry::default()]);
    recounted(Tree {
        inodes: vec![inode(DIRECTORY, 128, 0), inode(FILE, 128, 0), Inode::default(), inode(SYMLINK, 128, 0)],
        entries,
        texts: vec![b"./f0".to_vec()],
        handles: vec![],
    })
}

/// A directory with as many subdirectories as the link count allows, and free records for more.
pub fn many_subdirectories() -> Tree {
    let mut tree = Tree {
        inodes: vec![inode(DIRECTORY, 0, 0); 64],
        entries: vec![Entry::new(0, 1, b"top")],
        texts: vec![],
        handles: vec![Handle { state: 2, inode: 63 }],
    };
    (tree.entries).extend((0..62).map(|i| Entry::new(1, 2 + u16::from(i), &[48 + i])));
    tree.inodes.push(Inode::default());
    tree.entries.push(Entry::default());
    recounted(tree)
}

/// Names that differ in their last byte, in their length or in their directory alone.
pub fn near_names() -> Tree {
    let names: [&[u8]; 16] = [
        b"aaaaaaaaaaaaaaaaaaaaaaaa",
        b"aaaaaaaaaaaaaaaaaaaaaaab",
        b"aaaaaaaaaaaaaaaaaaaaaaa",
        b"baaaaaaaaaaaaaaaaaaaaaaa",
        b"aaaaaaab",
        b"aaaaaaaa",
        b"aaaaaaaaa",
        b"aaaaaaa",
        b"aaaaaaaaaaaaaaaa",
        b"aaaaaaaaaaaaaaab",
        b"...",
        b"..a",
        b".a",
        b"a.",
        b"\xff",
        b"\x01",
    ];
    let mut inodes = vec![inode(DIRECTORY, 3, 0); 3];
    inodes.extend([inode(FILE, 3, 0), inode(SYMLINK, 3, 0)]);
    let mut entries = vec![Entry::new(0, 1, b"1"), Entry::new(1, 2, b"1")];
    for parent in 0..3 {
        entries.extend(names.iter().map(|name| Entry::new(parent, 3 + parent % 2, name)));
    }
    recounted(Tree {
        inodes,
        entries,
        texts: vec![(1..64).map(|i| i * 4).collect()],
        handles: vec![Handle { state: 1, inode: 3 }],
    })
}

/// All samples, with a name each.
pub fn samples() -> Vec<(&'static str, Tree)> {
    vec![
        ("minimal", minimal()),
        ("every_state", every_state()),
        ("many names", many_names()),
        ("many subdirectories", many_subdirectories()),
        ("near names", near_names()),
        ("vacant", vacant()),
    ]
}

#[cfg(test)]
mod tests {
    use super::*;
    use crate::model::check::check;
    use crate::model::numbers::DONE;

    #[test]
    fn every_sample_is_consistent() {
        for (name, tree) in samples() {
            assert_eq!(check(&tree.encode()), DONE, "{name}");
        }
    }

    #[test]
    fn the_limits_are_reached() {
        assert_eq!(many_names().inodes[1].links, 64);
        assert_eq!(many_subdirectories().inodes[1].links, 64);
        assert_eq!(vacant().encode().len(), 53_448);
        assert_eq!(minimal().encode().len(), 104);
    }
}
