//! A random tree grown from its root, its records numbered as they come.

use std::collections::HashSet;

use super::values;
use crate::image::{kind, Entry, Handle, Image, Inode};
use crate::random::Random;

/// How many records are to be in use: exactly so many inodes, and of all else so many if they can be had.
pub struct Wanted {
    pub inodes: usize,
    pub entries: usize,
    pub texts: usize,
    pub handles: usize,
}

const MOST_LINKS: u16 = 64;

pub fn image(random: &mut Random, wanted: &Wanted) -> Image {
    let mut tree =
        Growing { random, image: Image::default(), directories: vec![0], others: Vec::new(), names: HashSet::new() };
    let system = values::system(tree.random);
    tree.push_inode(kind::DIRECTORY, system, 0);
    while tree.image.inodes.len() < wanted.inodes {
        tree.add_inode(wanted);
    }
    while tree.image.entries.len() < wanted.entries && tree.add_name() {}
    for _ in 0..wanted.handles {
        tree.add_handle();
    }
    tree.image
}

struct Growing<'a> {
    random: &'a mut Random,
    image: Image,
    directories: Vec<u16>,
    /// The files and symlinks that can have further names.
    others: Vec<u16>,
    /// The names in use, with their directories.
    names: HashSet<(u16, Vec<u8>)>,
}

impl Growing<'_> {
    /// Adds an inode with a name, somewhere in the tree.
    fn add_inode(&mut self, wanted: &Wanted) {
        // Half of the time in the newest directory, so that some trees are deep.
        let newest = self.directories[self.directories.len() - 1];
        let parent = if self.random.once_in(2) { newest } else { *self.random.pick(&self.directories) };
        let Inode { system, links, .. } = *self.inode(parent);
        let target = self.image.inodes.len() as u16;
        let name = self.unused_name(parent);
        match *self.random.pick(&[kind::DIRECTORY, kind::DIRECTORY, kind::FILE, kind::FILE, kind::SYMLINK]) {
            kind::DIRECTORY if links < MOST_LINKS => {
                let system = if self.random.once_in(8) { values::system(self.random) } else { system };
                self.push_inode(kind::DIRECTORY, system, parent);
                self.directories.push(target);
            }
            kind::SYMLINK if self.image.texts.len() < wanted.texts => {
                let text = values::text(self.random, &self.image, &name);
                self.push_inode(kind::SYMLINK, system, self.image.texts.len() as u16);
                self.image.texts.push(text);
                self.others.push(target);
            }
            _ => {
                self.push_inode(kind::FILE, system, 0);
                self.others.push(target);
            }
        }
        self.push_entry(Entry { parent, target, name });
    }

    /// Adds a further name of a file or a symlink, if there is one that can have it.
    fn add_name(&mut self) -> bool {
        if self.others.is_empty() {
            return false;
        }
        let at = self.random.below(self.others.len());
        let target = self.others[at];
        let parent = self.directory_for(target);
        let name = self.unused_name(parent);
        self.push_entry(Entry { parent, target, name });
        if self.inode(target).links == MOST_LINKS {
            self.others.swap_remove(at);
        }
        true
    }

    /// A directory on the file system of an inode that has a name: any, or that of the name if none is soon found.
    fn directory_for(&mut self, target: u16) -> u16 {
        let system = self.inode(target).system;
        for _ in 0..8 {
            let directory = *self.random.pick(&self.directories);
            if self.inode(directory).system == system {
                return directory;
            }
        }
        let named = self.image.entries.iter().find(|entry| entry.target == target);
        named.map_or(0, |entry| entry.parent)
    }

    fn inode(&self, number: u16) -> &Inode {
        &self.image.inodes[usize::from(number)]
    }

    fn add_handle(&mut self) {
        let state = self.random.below(3) as u8;
        let inode = self.random.below(self.image.inodes.len()) as u16;
        self.image.handles.push(if state == 0 { Handle::default() } else { Handle { state, inode } });
    }

    fn push_inode(&mut self, kind: u8, system: u8, field: u16) {
        let inode = Inode {
            kind,
            system,
            mode: values::mode(self.random),
            owner: values::user(self.random),
            group: values::user(self.random),
            links: if kind == kind::DIRECTORY { 2 } else { 0 },
            field,
            modified: values::time(self.random),
            changed: values::time(self.random),
        };
        self.image.inodes.push(inode);
    }

    /// Adds an entry and counts its link: a directory is one of its parent's, anything else one of its own.
    fn push_entry(&mut self, entry: Entry) {
        let counted = if self.inode(entry.target).is_directory() { entry.parent } else { entry.target };
        self.image.inodes[usize::from(counted)].links += 1;
        self.image.entries.push(entry);
    }

    /// A name that the directory does not have yet, and has from now on.
    fn unused_name(&mut self, parent: u16) -> Vec<u8> {
        let mut attempt = 0;
        loop {
            let name = values::name(self.random, attempt);
            if self.names.insert((parent, name.clone())) {
                return name;
            }
            attempt += 1;
        }
    }
}
