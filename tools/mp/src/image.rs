//! An image as records: the form in which people look at it and in which it is built.

mod layout;
mod read;
mod write;

pub use layout::{record_at, Section};

/// The number that stands for no inode and no text in a journal record.
pub const ABSENT: u16 = 65_535;

/// What an inode is.
pub mod kind {
    pub const FREE: u8 = 0;
    pub const FILE: u8 = 1;
    pub const DIRECTORY: u8 = 2;
    pub const SYMLINK: u8 = 3;
}

/// What a journal record is of.
pub mod operation {
    pub const RENAME: u8 = 0;
    pub const EXCHANGE: u8 = 7;
}

/// A NODE record. Its type is a number, since an image may have any.
#[derive(Clone, Copy, Debug, Default, PartialEq, Eq)]
pub struct Inode {
    pub kind: u8,
    pub system: u8,
    pub mode: u16,
    pub owner: u32,
    pub group: u32,
    pub links: u16,
    /// A directory's parent, a symlink's text, else 0.
    pub field: u16,
    pub modified: u64,
    pub changed: u64,
}

/// A LINK record: a name in a directory. A free one has no name.
#[derive(Clone, Debug, Default, PartialEq, Eq)]
pub struct Entry {
    pub parent: u16,
    pub target: u16,
    pub name: Vec<u8>,
}

/// A HAND record.
#[derive(Clone, Copy, Debug, Default, PartialEq, Eq)]
pub struct Handle {
    /// 0 closed, 1 open, 2 opened for search.
    pub state: u8,
    pub inode: u16,
}

/// The NOTE record: what a rename or an exchange is about to do.
#[derive(Clone, Copy, Debug, Default, PartialEq, Eq)]
pub struct Journal {
    pub mark: u8,
    /// One of [`operation`], if a plan has written it.
    pub kind: u8,
    pub old_slot: u16,
    pub new_slot: u16,
    pub moved: u16,
    pub replaced: u16,
    pub old_parent: u16,
    pub text: u16,
    pub time: u64,
    /// The bytes that belong to none of these, two at 14 and eight at 24: zero in every record that a plan has.
    pub rest: [u8; 10],
}

/// All records of an image. A free symlink text is empty.
#[derive(Clone, Debug, Default, PartialEq, Eq)]
pub struct Image {
    pub inodes: Vec<Inode>,
    pub entries: Vec<Entry>,
    pub texts: Vec<Vec<u8>>,
    pub handles: Vec<Handle>,
    pub journal: Journal,
}

impl Inode {
    pub fn is_used(&self) -> bool {
        self.kind != kind::FREE
    }

    pub fn is_directory(&self) -> bool {
        self.kind == kind::DIRECTORY
    }
}

impl Entry {
    pub fn is_used(&self) -> bool {
        !self.name.is_empty()
    }
}

impl Handle {
    pub fn is_open(&self) -> bool {
        self.state != 0
    }
}

impl Image {
    /// The inode of that number, if there is one.
    pub fn inode(&self, number: u16) -> Option<&Inode> {
        self.inodes.get(usize::from(number))
    }

    /// The entries in use, with their slots.
    pub fn used_entries(&self) -> impl Iterator<Item = (usize, &Entry)> {
        self.entries.iter().enumerate().filter(|(_, entry)| entry.is_used())
    }
}
