//! The image that a rename or an exchange is to lead to, made from the one before without a plan (rules 88 to 93a).

use crate::model::image::{Image, DIRECTORY, FREE, SYMLINK};
use crate::model::layout::{Layout, ENTRIES, INODES, SECTIONS, TEXTS};
use crate::model::request::{Request, EXCHANGE};
use crate::model::walk::{walk_both, Existing, Found};

const RECORD_LEN: usize = 32;

/// A copy of an image that is being changed, record by record.
struct Draft {
    bytes: Vec<u8>,
    layout: Layout,
}

/// The whole image after a call that is not refused; nothing where a walk is, or where an exchange has nothing to take.
/// Two names of one inode both stay.
pub fn finished(before: &[u8], request: &Request, now: u64) -> Option<Vec<u8>> {
    let layout = Layout::read(before)?;
    let [old, new] = walk_both(&Image::read(before)?, request).found?;
    let moved = old.existing?;
    if new.existing.is_some_and(|replaced| replaced.inode == moved.inode) {
        return Some(before.to_vec());
    }
    let mut draft = Draft { bytes: before.to_vec(), layout };
    match request.flags {
        EXCHANGE => draft.exchange(moved, new.existing?, [old.directory, new.directory], now),
        _ => draft.rename(moved, &new, now)?,
    }
    for directory in [old.directory, new.directory] {
        draft.put(directory, 16, &now.to_le_bytes());
        draft.put(directory, 24, &now.to_le_bytes());
    }
    draft.recount();
    Some(draft.bytes)
}

impl Draft {
    /// All of a rename but the parents' times and the counts; nothing where there is no slot for the new name.
    fn rename(&mut self, moved: Existing, new: &Found, now: u64) -> Option<()> {
        let slot = match new.existing {
            Some(replaced) => replaced.slot.into(),
            None => self.lowest_free_slot()?,
        };
        self.name(slot, new.directory, moved.inode, &new.name);
        self.clear(ENTRIES, moved.slot.into());
        self.enter(moved.inode, new.directory, now);
        if let Some(replaced) = new.existing {
            self.take_name_from(replaced, now);
        }
        Some(())
    }

    /// Rule 93a, but for the parents' times and the counts: each of the two goes where the other was.
    fn exchange(&mut self, one: Existing, other: Existing, [from, into]: [u16; 2], now: u64) {
        self.record(ENTRIES, one.slot.into(), RECORD_LEN)[2..4].copy_from_slice(&other.inode.to_le_bytes());
        self.record(ENTRIES, other.slot.into(), RECORD_LEN)[2..4].copy_from_slice(&one.inode.to_le_bytes());
        self.enter(one.inode, into, now);
        self.enter(other.inode, from, now);
    }

    /// Rules 89 and 89a: an inode comes into a directory, or stays in it.
    fn enter(&mut self, inode: u16, into: u16, now: u64) {
        self.put(inode, 24, &now.to_le_bytes());
        if self.kind(inode) == DIRECTORY {
            self.put(inode, 14, &into.to_le_bytes());
        }
    }

    fn record(&mut self, section: usize, number: usize, len: usize) -> &mut [u8] {
        let at = self.layout.position(section, number);
        &mut self.bytes[at..at + len]
    }

    fn clear(&mut self, section: usize, number: usize) {
        let len = SECTIONS[section].record_len;
        self.record(section, number, len).fill(0);
    }

    /// Writes a field of an inode.
    fn put(&mut self, inode: u16, at: usize, field: &[u8]) {
        self.record(INODES, inode.into(), RECORD_LEN)[at..at + field.len()].copy_from_slice(field);
    }

    fn kind(&self, inode: u16) -> u8 {
        self.bytes[self.layout.position(INODES, inode.into())]
    }

    fn field(&self, inode: u16) -> u16 {
        let at = self.layout.position(INODES, inode.into()) + 14;
        u16::from_le_bytes([self.bytes[at], self.bytes[at + 1]])
    }

    /// The used entries as parent and target.
    fn entries(&self) -> Vec<(u16, u16)> {
        let used = |entry: &&[u8]| entry[4] != 0;
        let numbers =
            |entry: &[u8]| (u16::from_le_bytes([entry[0], entry[1]]), u16::from_le_bytes([entry[2], entry[3]]));
        self.bytes[self.layout.section(ENTRIES)].chunks_exact(RECORD_LEN).filter(used).map(numbers).collect()
    }

    fn lowest_free_slot(&self) -> Option<usize> {
        self.bytes[self.layout.section(ENTRIES)].chunks_exact(RECORD_LEN).position(|entry| entry[4] == 0)
    }

    fn name(&mut self, slot: usize, directory: u16, inode: u16, name: &[u8]) {
        self.clear(ENTRIES, slot);
        let record = self.record(ENTRIES, slot, RECORD_LEN);
        record[..2].copy_from_slice(&directory.to_le_bytes());
        record[2..4].copy_from_slice(&inode.to_le_bytes());
        record[4] = name.len() as u8;
        record[8..8 + name.len()].copy_from_slice(name);
    }

    /// Rule 91, after its entry is gone: an inode without any other goes too, and a symlink's text with it.
    fn take_name_from(&mut self, replaced: Existing, now: u64) {
        if self.entries().iter().any(|&(_, target)| target == replaced.inode) {
            self.put(replaced.inode, 24, &now.to_le_bytes());
            return;
        }
        if self.kind(replaced.inode) == SYMLINK {
            self.clear(TEXTS, self.field(replaced.inode).into());
        }
        self.clear(INODES, replaced.inode.into());
    }

    /// Rules 31, 32 and 88: counts the links of every inode anew. Only those that the rename concerns can have another count than before.
    fn recount(&mut self) {
        let entries = self.entries();
        for inode in 0..self.layout.counts[INODES] as u16 {
            let below = entries.iter().filter(|&&(parent, target)| parent == inode && self.kind(target) == DIRECTORY);
            let links = match self.kind(inode) {
                FREE => continue,
                DIRECTORY => 2 + below.count(),
                _ => entries.iter().filter(|&&(_, target)| target == inode).count(),
            };
            self.put(inode, 12, &(links as u16).to_le_bytes());
        }
    }
}
