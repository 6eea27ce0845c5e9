//! A consistent tree for renames: on each of three file systems, something of every kind to move and to replace.

use crate::cases::trees::builder::{Entry, Handle, Inode, Tree};
use crate::model::image::{DIRECTORY, FILE, SYMLINK};

/// Who owns all of the tree.
pub const OWNER: u32 = 100;
pub const GROUP: u32 = 50;

pub const MODE: u16 = 0o777;

/// The areas by name, with their file systems: root's own, the last that may be written, the first that may not.
pub const AREAS: [(&str, u8); 3] = [("w", 0), ("o", 127), ("r", 128)];

/// The handles that are closed.
pub const CLOSED: [usize; 2] = [0, 3];

/// The one slot that is free.
pub const FREE_SLOT: usize = 100;

struct Builder {
    tree: Tree,
}

impl Builder {
    fn inode(&mut self, kind: u8, file_system: u8, field: u16) -> u16 {
        self.tree.inodes.push(Inode {
            kind,
            file_system,
            mode: MODE,
            owner: OWNER,
            group: GROUP,
            links: 0,
            field,
            modified: 1000,
            changed: 2000,
        });
        self.tree.inodes.len() as u16 - 1
    }

    fn name(&mut self, parent: u16, inode: u16, name: &str) {
        self.tree.entries.push(Entry::new(parent, inode, name.as_bytes()));
    }

    fn directory(&mut self, parent: u16, name: &str, file_system: u8) -> u16 {
        let number = self.inode(DIRECTORY, file_system, parent);
        self.name(parent, number, name);
        number
    }

    /// A file or a symlink goes where its directory is.
    fn file(&mut self, parent: u16, name: &str) -> u16 {
        let number = self.inode(FILE, self.tree.inodes[usize::from(parent)].file_system, 0);
        self.name(parent, number, name);
        number
    }

    fn symlink(&mut self, parent: u16, name: &str, text: &str) -> u16 {
        let file_system = self.tree.inodes[usize::from(parent)].file_system;
        let number = self.inode(SYMLINK, file_system, self.tree.texts.len() as u16);
        self.tree.texts.push(text.into());
        self.name(parent, number, name);
        number
    }

    /// One of every kind that a rename may replace; those that are kept have a name beside.
    fn targets(&mut self, parent: u16, file_system: u8) {
        self.file(parent, "file");
        let kept = self.file(parent, "kept");
        self.name(parent, kept, "kept2");
        self.symlink(parent, "link", "nowhere");
        let kept = self.symlink(parent, "klink", "/w");
        self.name(parent, kept, "klink2");
        self.directory(parent, "empty", file_system);
        let full = self.directory(parent, "full", file_system);
        self.file(full, "x");
        self.directory(parent, "mount", file_system ^ 1);
    }

    fn area(&mut self, name: &str, file_system: u8) {
        let area = self.directory(0, name, file_system);
        let [p, q] = ["p", "q"].map(|name| self.directory(area, name, file_system));
        let file = self.file(p, "f");
        let symlink = self.symlink(p, "l", "d");
        for (inode, beside, elsewhere) in [(file, "f2", "pf"), (symlink, "l2", "pl")] {
            self.name(p, inode, beside);
            self.name(q, inode, elsewhere);
        }
        self.directory(p, "s", file_system);
        let parent = self.directory(p, "d", file_system);
        let below = self.directory(parent, "e", file_system);
        let mounted = self.directory(p, "m", file_system ^ 1);
        let back = self.directory(mounted, "e", file_system);
        for directory in [p, q, parent, below, back] {
            self.targets(directory, file_system);
        }
    }

    /// Down in the first area, a directory with as many subdirectories as its link count allows.
    fn wide(&mut self, parent: u16) {
        let wide = self.directory(parent, "wide", 0);
        self.targets(wide, 0);
        for i in 0..59 {
            self.directory(wide, &format!("n{i}"), 0);
        }
    }
}

pub fn rename_tree() -> Tree {
    let mut builder = Builder { tree: Tree::default() };
    builder.inode(DIRECTORY, 0, 0);
    for (name, file_system) in AREAS {
        builder.area(name, file_system);
    }
    let number = |builder: &Builder, path: &str| inode_at(&builder.tree, path);
    let [p, q, parent, below] = ["/w/p", "/w/q", "/w/p/d", "/w/p/d/e"].map(|path| number(&builder, path));
    builder.wide(parent);
    builder.symlink(0, "ld", "/w/p/d");
    builder.symlink(0, "lp", "w//p/");
    builder.symlink(below, "out", "../../../q");
    builder.symlink(q, "in", "../p/d/e");
    builder.symlink(0, "loop", "/loop");
    let mut tree = builder.tree;
    tree.handles = [(0, 0), (1, p), (2, q), (0, 0)].map(|(state, inode)| Handle { state, inode }).to_vec();
    tree.entries.insert(FREE_SLOT, Entry::default());
    tree.recount();
    tree
}

/// The tree with the mode of one inode changed.
pub fn rename_tree_with(path: &str, mode: u16) -> Tree {
    let mut tree = rename_tree();
    let number = usize::from(inode_at(&tree, path));
    tree.inodes[number].mode = mode;
    tree
}

/// The inode at the end of a path without symlinks.
pub fn inode_at(tree: &Tree, path: &str) -> u16 {
    path.split('/').filter(|name| !name.is_empty()).fold(0, |directory, name| {
        let slot = tree.entries_in(directory).into_iter().find(|&slot| tree.entries[slot].name == name.as_bytes());
        tree.entries[slot.expect("every path is in the tree")].target
    })
}

#[cfg(test)]
mod tests {
    use super::*;
    use crate::model::check::check;
    use crate::model::numbers::DONE;

    #[test]
    fn the_tree_is_consistent() {
        let tree = rename_tree();
        assert_eq!(check(&tree.encode()), DONE);
        assert_eq!(tree.inodes[usize::from(inode_at(&tree, "/w/p/d/wide"))].links, 64);
        assert_eq!(tree.entries.iter().filter(|entry| entry.is_free()).count(), 1);
    }
}
