//! An image's bytes made from its records.

use super::layout::{Section, TABLE};
use super::{Entry, Handle, Image, Inode, Journal};

fn inode(inode: &Inode) -> Vec<u8> {
    let mut record = vec![inode.kind, inode.system];
    record.extend(inode.mode.to_le_bytes());
    record.extend(inode.owner.to_le_bytes());
    record.extend(inode.group.to_le_bytes());
    record.extend(inode.links.to_le_bytes());
    record.extend(inode.field.to_le_bytes());
    record.extend(inode.modified.to_le_bytes());
    record.extend(inode.changed.to_le_bytes());
    record
}

fn entry(entry: &Entry) -> Vec<u8> {
    let mut record = Vec::with_capacity(Section::Entries.size());
    record.extend(entry.parent.to_le_bytes());
    record.extend(entry.target.to_le_bytes());
    record.extend([entry.name.len() as u8, 0, 0, 0]);
    record.extend(&entry.name);
    record
}

fn text(text: &[u8]) -> Vec<u8> {
    [&[text.len() as u8], text].concat()
}

fn handle(handle: &Handle) -> Vec<u8> {
    let [low, high] = handle.inode.to_le_bytes();
    vec![handle.state, 0, low, high]
}

fn journal(journal: &Journal) -> Vec<u8> {
    let mut record = vec![journal.mark, journal.kind];
    let numbers =
        [journal.old_slot, journal.new_slot, journal.moved, journal.replaced, journal.old_parent, journal.text];
    numbers.iter().for_each(|number| record.extend(number.to_le_bytes()));
    record.extend(&journal.rest[..2]);
    record.extend(journal.time.to_le_bytes());
    record.extend(&journal.rest[2..]);
    record
}

/// The records of one section, each filled up with zeros to its size.
fn section(section: Section, records: impl Iterator<Item = Vec<u8>>) -> (Section, Vec<u8>) {
    let mut bytes = Vec::new();
    for mut record in records {
        record.resize(section.size(), 0);
        bytes.extend(record);
    }
    (section, bytes)
}

impl Image {
    /// The image's bytes. The records have to be within the limits of an image.
    pub fn write(&self) -> Vec<u8> {
        let sections = [
            section(Section::Inodes, self.inodes.iter().map(inode)),
            section(Section::Entries, self.entries.iter().map(entry)),
            section(Section::Texts, self.texts.iter().map(|bytes| text(bytes))),
            section(Section::Handles, self.handles.iter().map(handle)),
            section(Section::Journal, [journal(&self.journal)].into_iter()),
        ];
        let (mut contents, mut bodies) = (Vec::new(), Vec::new());
        for (section, bytes) in sections {
            contents.extend(section.name().as_bytes());
            contents.extend(((TABLE + bodies.len()) as u16).to_le_bytes());
            contents.extend(((bytes.len() / section.size()) as u16).to_le_bytes());
            bodies.extend(bytes);
        }
        contents.extend(bodies);
        contents
    }
}
