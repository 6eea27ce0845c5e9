//! The records of an image as its rules ask for them, with what the entries add up to.

use crate::model::image::{Entry, Handle, Image, Inode, Text, DIRECTORY, FILE, FREE, SYMLINK};

pub struct Records<'a> {
    pub image: Image<'a>,
    /// For each inode, the used entries that target it.
    pub names: Vec<u16>,
    /// For each inode, the used entries in it that target a directory.
    pub subdirectories: Vec<u16>,
}

impl<'a> Records<'a> {
    pub fn new(image: Image<'a>) -> Records<'a> {
        let mut names = vec![0; image.inodes().count()];
        let mut subdirectories = names.clone();
        for entry in image.entries().filter(|entry| entry.name_len() != 0) {
            if let Some(count) = names.get_mut(usize::from(entry.target())) {
                *count += 1;
            }
            let holder = subdirectories.get_mut(usize::from(entry.parent()));
            if let Some(count) = holder.filter(|_| image.is_directory(entry.target())) {
                *count += 1;
            }
        }
        Records { image, names, subdirectories }
    }

    pub fn inodes(&self) -> impl Iterator<Item = (usize, Inode<'a>)> {
        self.image.inodes().enumerate()
    }

    pub fn inodes_of(&self, kind: u8) -> impl Iterator<Item = (usize, Inode<'a>)> {
        self.inodes().filter(move |(_, inode)| inode.kind() == kind)
    }

    pub fn non_directories(&self) -> impl Iterator<Item = (usize, Inode<'a>)> {
        self.inodes().filter(|(_, inode)| matches!(inode.kind(), FILE | SYMLINK))
    }

    /// Those of a type that is known.
    pub fn used_inodes(&self) -> impl Iterator<Item = (usize, Inode<'a>)> {
        self.inodes().filter(|(_, inode)| matches!(inode.kind(), FILE | DIRECTORY | SYMLINK))
    }

    pub fn free_inodes(&self) -> impl Iterator<Item = (usize, Inode<'a>)> {
        self.inodes_of(FREE)
    }

    pub fn used_entries(&self) -> impl Iterator<Item = (usize, Entry<'a>)> {
        self.image.entries().enumerate().filter(|(_, entry)| entry.name_len() != 0)
    }

    pub fn used_texts(&self) -> impl Iterator<Item = (usize, Text<'a>)> {
        self.image.texts().enumerate().filter(|(_, text)| text.text_len() != 0)
    }

    pub fn open_handles(&self) -> impl Iterator<Item = (usize, Handle<'a>)> {
        self.image.handles().enumerate().filter(|(_, handle)| handle.is_open())
    }

    /// The text of a symlink, where it has one that is in use.
    pub fn text_of(&self, symlink: Inode) -> Option<usize> {
        let text = self.image.text(symlink.field()).filter(|text| text.text_len() != 0);
        text.map(|_| symlink.field().into())
    }
}

/// The numbers of the records that are so.
pub fn those<T: Copy>(records: impl Iterator<Item = (usize, T)>, are_so: impl Fn(usize, T) -> bool) -> Vec<usize> {
    records.filter(|&(number, record)| are_so(number, record)).map(|(number, _)| number).collect()
}

pub fn all_zero(bytes: &[u8]) -> bool {
    bytes.iter().fold(0, |all, byte| all | byte) == 0
}
