//! Builds images from records, and keeps link counts and parents in step with the entries.

use crate::model::image::{DIRECTORY, FREE, NAME_MAX, TEXT_MAX};
use crate::model::layout::{Layout, ENTRIES, HANDLES, INODES, ROW_LEN, SECTIONS, TEXTS};

#[derive(Clone, Debug, Default, PartialEq, Eq)]
pub struct Inode {
    pub kind: u8,
    pub file_system: u8,
    pub mode: u16,
    pub owner: u32,
    pub group: u32,
    pub links: u16,
    pub field: u16,
    pub modified: u64,
    pub changed: u64,
}

/// A directory entry; the default, with no name, is a free one.
#[derive(Clone, Debug, Default, PartialEq, Eq)]
pub struct Entry {
    pub parent: u16,
    pub target: u16,
    pub name: Vec<u8>,
}

#[derive(Clone, Debug, Default, PartialEq, Eq)]
pub struct Handle {
    pub state: u8,
    pub inode: u16,
}

/// The records of an image with a clear journal record. Nothing keeps them consistent.
#[derive(Clone, Debug, Default, PartialEq, Eq)]
pub struct Tree {
    pub inodes: Vec<Inode>,
    pub entries: Vec<Entry>,
    pub texts: Vec<Vec<u8>>,
    pub handles: Vec<Handle>,
}

impl Entry {
    pub fn new(parent: u16, target: u16, name: &[u8]) -> Entry {
        Entry { parent, target, name: name.to_vec() }
    }

    pub fn is_free(&self) -> bool {
        self.name.is_empty()
    }
}

impl Tree {
    /// A symlink behind all other inodes, with a name in a directory and the next text for its own.
    pub fn add_symlink(&mut self, directory: u16, name: &[u8], text: Vec<u8>, inode: Inode) {
        let number = self.inodes.len() as u16;
        self.inodes.push(Inode { field: self.texts.len() as u16, ..inode });
        self.entries.push(Entry::new(directory, number, name));
        self.texts.push(text);
    }

    pub fn encode(&self) -> Vec<u8> {
        let layout =
            Layout::of_counts([self.inodes.len(), self.entries.len(), self.texts.len(), self.handles.len(), 1]);
        let mut image = vec![0; layout.image_len()];
        for (i, rule) in SECTIONS.iter().enumerate() {
            put(&mut image, i * ROW_LEN, rule.name);
            put(&mut image, i * ROW_LEN + 4, &(layout.offsets[i] as u16).to_le_bytes());
            put(&mut image, i * ROW_LEN + 6, &(layout.counts[i] as u16).to_le_bytes());
        }
        for (i, inode) in self.inodes.iter().enumerate() {
            put(&mut image, layout.position(INODES, i), &inode.encode());
        }
        for (i, entry) in self.entries.iter().enumerate() {
            put(&mut image, layout.position(ENTRIES, i), &entry.encode());
        }
        for (i, text) in self.texts.iter().enumerate() {
            put(&mut image, layout.position(TEXTS, i), &encode_text(text));
        }
        for (i, handle) in self.handles.iter().enumerate() {
            put(&mut image, layout.position(HANDLES, i), &handle.encode());
        }
        image
    }

    /// Sets link counts, and the parents of directories, from the entries as they stand.
    pub fn recount(&mut self) {
        for number in 0..self.inodes.len() {
            let names = self.entries_to(number as u16);
            let inode = &self.inodes[number];
            if inode.kind == FREE {
                continue;
            }
            let (links, field) = if inode.kind == DIRECTORY {
                let parent = names.first().filter(|_| number != 0).map(|&slot| self.entries[slot].parent);
                (2 + self.subdirectories(number as u16), parent.unwrap_or(inode.field))
            } else {
                (names.len(), inode.field)
            };
            self.inodes[number].links = links as u16;
            self.inodes[number].field = field;
        }
    }

    /// The slots of the used entries that target an inode.
    pub fn entries_to(&self, inode: u16) -> Vec<usize> {
        self.slots(|entry| !entry.is_free() && entry.target == inode)
    }

    /// The slots of the used entries in a directory.
    pub fn entries_in(&self, directory: u16) -> Vec<usize> {
        self.slots(|entry| !entry.is_free() && entry.parent == directory)
    }

    pub fn kind(&self, inode: u16) -> u8 {
        self.inodes.get(usize::from(inode)).map_or(FREE, |inode| inode.kind)
    }

    /// Every directory, root first.
    pub fn directories(&self) -> Vec<u16> {
        (0..self.inodes.len() as u16).filter(|&number| self.kind(number) == DIRECTORY).collect()
    }

    /// Makes the first free slot an entry; false where none is free.
    pub fn add(&mut self, entry: Entry) -> bool {
        match self.entries.iter_mut().find(|slot| slot.is_free()) {
            Some(slot) => {
                *slot = entry;
                true
            }
            None => false,
        }
    }

    fn subdirectories(&self, directory: u16) -> usize {
        let below = self.entries_in(directory).into_iter();
        below.filter(|&slot| self.kind(self.entries[slot].target) == DIRECTORY).count()
    }

    fn slots(&self, wanted: impl Fn(&Entry) -> bool) -> Vec<usize> {
        (0..self.entries.len()).filter(|&slot| wanted(&self.entries[slot])).collect()
    }
}

fn put(image: &mut [u8], at: usize, bytes: &[u8]) {
    image[at..at + bytes.len()].copy_from_slice(bytes);
}

impl Inode {
    fn encode(&self) -> [u8; 32] {
        let mut record = [self.kind; 32];
        record[1] = self.file_system;
        put(&mut record, 2, &self.mode.to_le_bytes());
        put(&mut record, 4, &self.owner.to_le_bytes());
        put(&mut record, 8, &self.group.to_le_bytes());
        put(&mut record, 12, &self.links.to_le_bytes());
        put(&mut record, 14, &self.field.to_le_bytes());
        put(&mut record, 16, &self.modified.to_le_bytes());
        put(&mut record, 24, &self.changed.to_le_bytes());
        record
    }
}

impl Entry {
    fn encode(&self) -> [u8; 32] {
        assert!(self.name.len() <= NAME_MAX, "a name of {} bytes", self.name.len());
        let mut record = [0; 32];
        put(&mut record, 0, &self.parent.to_le_bytes());
        put(&mut record, 2, &self.target.to_le_bytes());
        record[4] = self.name.len() as u8;
        put(&mut record, 8, &self.name);
        record
    }
}

fn encode_text(text: &[u8]) -> [u8; 64] {
    assert!(text.len() <= TEXT_MAX, "a text of {} bytes", text.len());
    let mut record = [0; 64];
    record[0] = text.len() as u8;
    put(&mut record, 1, text);
    record
}

impl Handle {
    fn encode(&self) -> [u8; 8] {
        let mut record = [0; 8];
        record[0] = self.state;
        put(&mut record, 2, &self.inode.to_le_bytes());
        record
    }
}
