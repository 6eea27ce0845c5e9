//! A consistent tree about to be changed, and ways to change it at some of its records.

use super::Images;
use crate::cases::trees::builder::Tree;
use crate::model::image::{DIRECTORY, FILE, FREE, SYMLINK};
use crate::model::layout::{Layout, ENTRIES, HANDLES, INODES, SECTIONS, TEXTS};

/// A consistent tree about to be changed, with its image and the places of its records.
pub struct Subject {
    pub tree: Tree,
    pub bytes: Vec<u8>,
    pub layout: Layout,
}

impl Subject {
    pub fn new(tree: Tree) -> Subject {
        let bytes = tree.encode();
        let layout = Layout::read(&bytes).expect("a consistent tree has a right layout");
        Subject { tree, bytes, layout }
    }

    /// The image with one byte changed; nothing where it has that value already.
    pub fn poke(&self, at: usize, value: u8) -> Option<Vec<u8>> {
        let mut image = self.bytes.clone();
        let old = std::mem::replace(&mut image[at], value);
        (old != value).then_some(image)
    }

    /// The same for two bytes.
    pub fn poke_u16(&self, at: usize, value: usize) -> Option<Vec<u8>> {
        let mut image = self.bytes.clone();
        put_u16(&mut image, at, value);
        (image != self.bytes).then_some(image)
    }

    /// The image of the tree after a change; nothing where the change says that it cannot be made.
    pub fn vary(&self, change: impl FnOnce(&mut Tree) -> bool) -> Option<Vec<u8>> {
        let mut tree = self.tree.clone();
        change(&mut tree).then(|| tree.encode())
    }

    pub fn inode_at(&self, number: usize) -> usize {
        self.layout.position(INODES, number)
    }

    pub fn entry_at(&self, slot: usize) -> usize {
        self.layout.position(ENTRIES, slot)
    }

    pub fn text_at(&self, number: usize) -> usize {
        self.layout.position(TEXTS, number)
    }

    pub fn handle_at(&self, number: usize) -> usize {
        self.layout.position(HANDLES, number)
    }

    fn inodes_where(&self, wanted: impl Fn(usize, u8) -> bool) -> Vec<usize> {
        let numbers = 0..self.tree.inodes.len();
        numbers.filter(|&number| wanted(number, self.tree.inodes[number].kind)).collect()
    }

    pub fn used_inodes(&self) -> Vec<usize> {
        self.inodes_where(|_, kind| kind != FREE)
    }

    pub fn free_inodes(&self) -> Vec<usize> {
        self.inodes_where(|_, kind| kind == FREE)
    }

    pub fn files(&self) -> Vec<usize> {
        self.inodes_where(|_, kind| kind == FILE)
    }

    pub fn symlinks(&self) -> Vec<usize> {
        self.inodes_where(|_, kind| kind == SYMLINK)
    }

    pub fn non_directories(&self) -> Vec<usize> {
        self.inodes_where(|_, kind| kind == FILE || kind == SYMLINK)
    }

    pub fn directories(&self) -> Vec<usize> {
        self.inodes_where(|_, kind| kind == DIRECTORY)
    }

    /// All directories but root.
    pub fn subdirectories(&self) -> Vec<usize> {
        self.inodes_where(|number, kind| number != 0 && kind == DIRECTORY)
    }

    pub fn used_slots(&self) -> Vec<usize> {
        (0..self.tree.entries.len()).filter(|&slot| !self.tree.entries[slot].is_free()).collect()
    }

    pub fn free_slots(&self) -> Vec<usize> {
        (0..self.tree.entries.len()).filter(|&slot| self.tree.entries[slot].is_free()).collect()
    }

    pub fn used_texts(&self) -> Vec<usize> {
        (0..self.tree.texts.len()).filter(|&text| !self.tree.texts[text].is_empty()).collect()
    }

    pub fn free_texts(&self) -> Vec<usize> {
        (0..self.tree.texts.len()).filter(|&text| self.tree.texts[text].is_empty()).collect()
    }

    pub fn open_handles(&self) -> Vec<usize> {
        (0..self.tree.handles.len()).filter(|&handle| self.tree.handles[handle].state != 0).collect()
    }

    pub fn closed_handles(&self) -> Vec<usize> {
        (0..self.tree.handles.len()).filter(|&handle| self.tree.handles[handle].state == 0).collect()
    }
}

pub fn put_u16(image: &mut [u8], at: usize, value: usize) {
    image[at..at + 2].copy_from_slice(&(value as u16).to_le_bytes());
}

/// At most five of the numbers, the first and the last among them.
pub fn spread(numbers: Vec<usize>) -> Vec<usize> {
    let last = numbers.len().saturating_sub(1);
    let mut places = vec![0, 1, last / 2, last.saturating_sub(1), last];
    places.sort_unstable();
    places.dedup();
    places.iter().filter_map(|&place| numbers.get(place).copied()).collect()
}

/// Some image for each of the numbers with each of the values.
pub fn each<T: Copy>(numbers: Vec<usize>, values: &[T], image: impl Fn(usize, T) -> Option<Vec<u8>>) -> Images {
    let image = &image;
    let pairs = numbers.into_iter().flat_map(|number| values.iter().map(move |&value| (number, value)));
    pairs.filter_map(|(number, value)| image(number, value)).collect()
}

/// Every byte of a free record in turn, but the one that would make it used. Where several records
/// are free the bytes are spread over them.
pub fn one_byte_each(subject: &Subject, free: Vec<usize>, section: usize, state_at: usize) -> Images {
    let places = (0..SECTIONS[section].record_len).filter(|&at| at != state_at);
    let image = |at: usize| {
        let record = *free.get(at % free.len().max(1))?;
        subject.poke(subject.layout.position(section, record) + at, [1, 128, 255][at % 3])
    };
    places.filter_map(image).collect()
}
