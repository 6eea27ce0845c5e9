//! Records read from an image's bytes. Only the layout has to be right: records at fault are read as they stand.

use super::layout::{parts, Part, Section};
use super::{Entry, Handle, Image, Inode, Journal};

fn u16_at(record: &[u8], at: usize) -> u16 {
    u16::from_le_bytes([record[at], record[at + 1]])
}

fn u32_at(record: &[u8], at: usize) -> u32 {
    u32::from(u16_at(record, at)) | u32::from(u16_at(record, at + 2)) << 16
}

fn u64_at(record: &[u8], at: usize) -> u64 {
    u64::from(u32_at(record, at)) | u64::from(u32_at(record, at + 4)) << 32
}

fn inode(record: &[u8]) -> Inode {
    Inode {
        kind: record[0],
        system: record[1],
        mode: u16_at(record, 2),
        owner: u32_at(record, 4),
        group: u32_at(record, 8),
        links: u16_at(record, 12),
        field: u16_at(record, 14),
        modified: u64_at(record, 16),
        changed: u64_at(record, 24),
    }
}

/// As many bytes as are said to be there; no more than there is room for.
fn counted(length: u8, room: &[u8]) -> Vec<u8> {
    room[..room.len().min(usize::from(length))].to_vec()
}

fn entry(record: &[u8]) -> Entry {
    Entry { parent: u16_at(record, 0), target: u16_at(record, 2), name: counted(record[4], &record[8..]) }
}

fn handle(record: &[u8]) -> Handle {
    Handle { state: record[0], inode: u16_at(record, 2) }
}

impl Journal {
    /// A journal record of 32 bytes; a shorter one is none.
    pub fn read(record: &[u8]) -> Option<Journal> {
        let record = record.get(..Section::Journal.size())?;
        let mut rest = [0; 10];
        rest[..2].copy_from_slice(&record[14..16]);
        rest[2..].copy_from_slice(&record[24..]);
        Some(Journal {
            mark: record[0],
            kind: record[1],
            old_slot: u16_at(record, 2),
            new_slot: u16_at(record, 4),
            moved: u16_at(record, 6),
            replaced: u16_at(record, 8),
            old_parent: u16_at(record, 10),
            text: u16_at(record, 12),
            time: u64_at(record, 16),
            rest,
        })
    }
}

/// The records of one section.
fn records(bytes: &[u8], part: Part) -> std::slice::ChunksExact<'_, u8> {
    let size = part.section.size();
    bytes[part.offset..part.offset + size * part.count].chunks_exact(size)
}

impl Image {
    /// The records of an image, or a sentence that says what is wrong with its layout.
    pub fn read(bytes: &[u8]) -> Result<Image, String> {
        let [inodes, entries, texts, handles, journals] = parts(bytes)?;
        Ok(Image {
            inodes: records(bytes, inodes).map(inode).collect(),
            entries: records(bytes, entries).map(entry).collect(),
            texts: records(bytes, texts).map(|record| counted(record[0], &record[1..])).collect(),
            handles: records(bytes, handles).map(handle).collect(),
            journal: records(bytes, journals).find_map(Journal::read).unwrap_or_default(),
        })
    }
}
