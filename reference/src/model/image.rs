//! The records of an image, and how their fields are read (forms D to H).

use super::layout::{u16_at, Layout, ENTRIES, HANDLES, INODES, JOURNAL, SECTIONS, TEXTS};

pub const NAME_MAX: usize = 24;
pub const TEXT_MAX: usize = 63;
pub const LINKS_MAX: u16 = 64;

pub const FREE: u8 = 0;
pub const FILE: u8 = 1;
pub const DIRECTORY: u8 = 2;
pub const SYMLINK: u8 = 3;

pub const CLOSED: u8 = 0;
const OPEN: u8 = 1;
pub const OPENED_FOR_SEARCH: u8 = 2;

fn u32_at(bytes: &[u8], at: usize) -> u32 {
    u32::from(u16_at(bytes, at)) | u32::from(u16_at(bytes, at + 2)) << 16
}

/// The bytes of an image with a right layout; its records may hold anything.
pub struct Image<'a> {
    inodes: &'a [u8],
    entries: &'a [u8],
    texts: &'a [u8],
    handles: &'a [u8],
    pub journal: &'a [u8],
}

fn records(body: &[u8], section: usize) -> impl Iterator<Item = &[u8]> {
    body.chunks_exact(SECTIONS[section].record_len)
}

fn record(body: &[u8], section: usize, number: u16) -> Option<&[u8]> {
    let len = SECTIONS[section].record_len;
    let start = usize::from(number) * len;
    body.get(start..start + len)
}

impl<'a> Image<'a> {
    pub fn read(bytes: &'a [u8]) -> Option<Image<'a>> {
        let layout = Layout::read(bytes)?;
        Some(Image {
            inodes: &bytes[layout.section(INODES)],
            entries: &bytes[layout.section(ENTRIES)],
            texts: &bytes[layout.section(TEXTS)],
            handles: &bytes[layout.section(HANDLES)],
            journal: &bytes[layout.section(JOURNAL)],
        })
    }

    pub fn inodes(&self) -> impl Iterator<Item = Inode<'a>> {
        records(self.inodes, INODES).map(Inode)
    }

    pub fn entries(&self) -> impl Iterator<Item = Entry<'a>> {
        records(self.entries, ENTRIES).map(Entry)
    }

    pub fn texts(&self) -> impl Iterator<Item = Text<'a>> {
        records(self.texts, TEXTS).map(Text)
    }

    pub fn handles(&self) -> impl Iterator<Item = Handle<'a>> {
        records(self.handles, HANDLES).map(Handle)
    }

    /// Nothing where the number is beyond the count.
    pub fn inode(&self, number: u16) -> Option<Inode<'a>> {
        record(self.inodes, INODES, number).map(Inode)
    }

    pub fn text(&self, number: u16) -> Option<Text<'a>> {
        record(self.texts, TEXTS, number).map(Text)
    }

    pub fn handle(&self, number: u8) -> Option<Handle<'a>> {
        record(self.handles, HANDLES, number.into()).map(Handle)
    }

    pub fn is_directory(&self, number: u16) -> bool {
        self.inode(number).is_some_and(|inode| inode.kind() == DIRECTORY)
    }

    pub fn is_used(&self, number: u16) -> bool {
        self.inode(number).is_some_and(|inode| inode.kind() != FREE)
    }
}

/// A NODE record.
#[derive(Clone, Copy)]
pub struct Inode<'a>(pub &'a [u8]);

impl Inode<'_> {
    pub fn kind(self) -> u8 {
        self.0[0]
    }

    pub fn file_system(self) -> u8 {
        self.0[1]
    }

    pub fn mode(self) -> u16 {
        u16_at(self.0, 2)
    }

    pub fn owner(self) -> u32 {
        u32_at(self.0, 4)
    }

    pub fn group(self) -> u32 {
        u32_at(self.0, 8)
    }

    pub fn links(self) -> u16 {
        u16_at(self.0, 12)
    }

    /// A directory's parent, a symlink's text number, or 0.
    pub fn field(self) -> u16 {
        u16_at(self.0, 14)
    }
}

/// A LINK record: a directory entry, free where its name is empty.
#[derive(Clone, Copy)]
pub struct Entry<'a>(pub &'a [u8]);

impl<'a> Entry<'a> {
    pub fn parent(self) -> u16 {
        u16_at(self.0, 0)
    }

    pub fn target(self) -> u16 {
        u16_at(self.0, 2)
    }

    pub fn name_len(self) -> usize {
        self.0[4].into()
    }

    pub fn pad(self) -> &'a [u8] {
        &self.0[5..8]
    }

    /// The bytes of the name; a length over the limit is taken as the limit.
    pub fn name(self) -> &'a [u8] {
        &self.0[8..8 + self.name_len().min(NAME_MAX)]
    }

    pub fn name_fill(self) -> &'a [u8] {
        &self.0[8 + self.name_len().min(NAME_MAX)..]
    }
}

/// A TEXT record: what a symlink stands for, free where it is empty.
#[derive(Clone, Copy)]
pub struct Text<'a>(pub &'a [u8]);

impl<'a> Text<'a> {
    pub fn text_len(self) -> usize {
        self.0[0].into()
    }

    /// The bytes of the text; a length over the limit is taken as the limit.
    pub fn bytes(self) -> &'a [u8] {
        &self.0[1..1 + self.text_len().min(TEXT_MAX)]
    }

    pub fn fill(self) -> &'a [u8] {
        &self.0[1 + self.text_len().min(TEXT_MAX)..]
    }
}

/// A HAND record: a handle, closed where its state is 0.
#[derive(Clone, Copy)]
pub struct Handle<'a>(pub &'a [u8]);

impl<'a> Handle<'a> {
    pub fn state(self) -> u8 {
        self.0[0]
    }

    pub fn is_open(self) -> bool {
        matches!(self.state(), OPEN | OPENED_FOR_SEARCH)
    }

    pub fn second_byte(self) -> u8 {
        self.0[1]
    }

    pub fn inode(self) -> u16 {
        u16_at(self.0, 2)
    }

    pub fn pad(self) -> &'a [u8] {
        &self.0[4..]
    }
}
