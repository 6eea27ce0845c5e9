//! The bench tree: the small tree on which the rules' own examples are told.

use crate::cases::trees::builder::{Entry, Handle, Inode, Tree};
use crate::model::image::{DIRECTORY, FILE, SYMLINK};

fn inode(kind: u8, links: u16, field: u16) -> Inode {
    Inode { kind, file_system: 0, mode: 0o755, owner: 100, group: 100, links, field, modified: 100, changed: 100 }
}

pub fn bench_tree() -> Tree {
    Tree {
        inodes: vec![
            inode(DIRECTORY, 4, 0), // root
            inode(DIRECTORY, 3, 0), // a
            inode(DIRECTORY, 2, 0), // b
            inode(FILE, 2, 0),      // a/f and b/h
            inode(FILE, 1, 0),      // b/g
            inode(DIRECTORY, 2, 1), // a/d
            inode(SYMLINK, 1, 0),   // s
        ],
        entries: vec![
            Entry::new(0, 1, b"a"),
            Entry::new(0, 2, b"b"),
            Entry::new(0, 6, b"s"),
            Entry::new(1, 3, b"f"),
            Entry::new(1, 5, b"d"),
            Entry::new(2, 4, b"g"),
            Entry::new(2, 3, b"h"),
            Entry::default(),
        ],
        texts: vec![b"a".to_vec()],
        handles: vec![Handle { state: 1, inode: 2 }],
    }
}

/// The bench tree with its free slot taken by a second name of the file b/g.
pub fn full_bench_tree() -> Tree {
    let mut tree = bench_tree();
    tree.entries[7] = Entry::new(0, 4, b"x");
    tree.inodes[4].links = 2;
    tree
}

#[cfg(test)]
mod tests {
    use super::*;
    use crate::model::check::check;
    use crate::model::layout::Layout;
    use crate::model::numbers::{DONE, INCONSISTENT};

    #[test]
    fn the_bench_tree_lies_as_told() {
        let image = bench_tree().encode();
        let layout = Layout::read(&image).expect("the layout is right");
        assert_eq!(layout.offsets, [40, 264, 520, 584, 592]);
        assert_eq!(layout.counts, [7, 8, 1, 1, 1]);
        assert_eq!(image.len(), 624);
        assert_eq!(&image[..8], b"NODE\x28\x00\x07\x00");
        assert_eq!(&image[32..40], b"NOTE\x50\x02\x01\x00");
        assert_eq!(&image[40..56], b"\x02\x00\xed\x01d\0\0\0d\0\0\0\x04\0\0\0");
        assert_eq!(&image[264 + 4 * 32..264 + 4 * 32 + 9], b"\x01\0\x05\0\x01\0\0\0d");
        assert_eq!(&image[520..523], b"\x01a\0");
        assert_eq!(&image[584..592], b"\x01\0\x02\0\0\0\0\0");
    }

    #[test]
    fn both_bench_trees_are_consistent() {
        assert_eq!(check(&bench_tree().encode()), DONE);
        assert_eq!(check(&full_bench_tree().encode()), DONE);
    }

    #[test]
    fn the_full_bench_tree_needs_its_second_link() {
        let mut tree = full_bench_tree();
        tree.inodes[4].links = 1;
        assert_eq!(check(&tree.encode()), INCONSISTENT);
    }
}
