//! A copy of the image on which a rename or an exchange is carried to its end (rules 108 and 108a); each record that is
//! written becomes a row.

use super::exchange::Exchange;
use super::journal::Journal;
use crate::model::image::{DIRECTORY, FREE};
use crate::model::layout::{Layout, ENTRIES, INODES, SECTIONS, TEXTS};
use crate::model::plan::{body_position, Row, PLAN_LEN, ROW_LEN};
use std::ops::Range;

const BOTH_NAMES: u8 = 2;
const THE_REST: u8 = 3;
pub const JOURNAL_LAST: u8 = 4;

const ENTRY_LEN: usize = 32;

pub struct Redo {
    /// The image as it will be once every row has landed.
    pub bytes: Vec<u8>,
    pub layout: Layout,
    /// The ordering group of each record written so far, and its bytes' place in the image.
    written: Vec<(u8, Range<usize>)>,
}

impl Redo {
    pub fn new(bytes: &[u8], layout: Layout) -> Redo {
        Redo { bytes: bytes.to_vec(), layout, written: vec![] }
    }

    /// The old entry goes first, so that all counts are those without it, whether or not it was cleared already.
    pub fn finish(&mut self, journal: &Journal, new_parent: u16) {
        self.clear(THE_REST, ENTRIES, journal.old_slot);
        self.write_moved(journal.moved, new_parent, journal.now);
        self.write_parent(journal.old_parent, journal.now);
        if new_parent != journal.old_parent {
            self.write_parent(new_parent, journal.now);
        }
        if let Some(replaced) = journal.replaced {
            self.write_replaced(replaced, journal.now);
        }
        if let Some(text) = journal.freed_text {
            self.clear(THE_REST, TEXTS, text);
        }
    }

    /// Rule 108a: both entries first, so that all counts are those with them. Which inode goes where is told by the
    /// record, whatever the slots lead to as yet.
    pub fn finish_exchange(&mut self, exchange: &Exchange, new_parent: u16) {
        self.write_target(exchange.old_slot, exchange.replaced);
        self.write_target(exchange.new_slot, exchange.moved);
        self.write_moved(exchange.moved, new_parent, exchange.now);
        self.write_parent(exchange.old_parent, exchange.now);
        if new_parent != exchange.old_parent {
            self.write_parent(new_parent, exchange.now);
        }
        self.write_moved(exchange.replaced, exchange.old_parent, exchange.now);
    }

    fn write_target(&mut self, slot: u16, target: u16) {
        let entry = self.begin(BOTH_NAMES, ENTRIES, slot).start;
        self.put(entry + 2, &target.to_le_bytes());
    }

    pub fn clear(&mut self, group: u8, section: usize, number: u16) {
        let place = self.begin(group, section, number);
        self.bytes[place].fill(0);
    }

    /// Notes that a record is written, and gives its place.
    fn begin(&mut self, group: u8, section: usize, number: u16) -> Range<usize> {
        let start = self.layout.position(section, number.into());
        let place = start..start + SECTIONS[section].record_len;
        self.written.push((group, place.clone()));
        place
    }

    /// Rules 89 and 89a.
    fn write_moved(&mut self, moved: u16, new_parent: u16, now: [u8; 8]) {
        let inode = self.begin(THE_REST, INODES, moved).start;
        self.put(inode + 24, &now);
        if self.bytes[inode] == DIRECTORY {
            self.put(inode + 14, &new_parent.to_le_bytes());
        }
    }

    /// Rule 90.
    fn write_parent(&mut self, directory: u16, now: [u8; 8]) {
        let inode = self.begin(THE_REST, INODES, directory).start;
        self.put(inode + 16, &now);
        self.put(inode + 24, &now);
        self.put(inode + 12, &self.links(directory).to_le_bytes());
    }

    /// Rule 91: nothing is left of an inode without names.
    fn write_replaced(&mut self, number: u16, now: [u8; 8]) {
        if self.names(number) == 0 {
            self.clear(THE_REST, INODES, number);
            return;
        }
        let inode = self.begin(THE_REST, INODES, number).start;
        self.put(inode + 24, &now);
        self.put(inode + 12, &self.links(number).to_le_bytes());
    }

    fn put(&mut self, at: usize, field: &[u8]) {
        self.bytes[at..at + field.len()].copy_from_slice(field);
    }

    /// Rules 31 and 32: of a directory two and its subdirectories, of any other inode its names.
    fn links(&self, number: u16) -> u16 {
        match self.kind(number) {
            DIRECTORY => 2 + self.count(|parent, target| parent == number && self.kind(target) == DIRECTORY),
            _ => self.names(number),
        }
    }

    fn names(&self, number: u16) -> u16 {
        self.count(|_, target| target == number)
    }

    /// How many of the used entries are so, by parent and target.
    fn count(&self, wanted: impl Fn(u16, u16) -> bool) -> u16 {
        let number = |entry: &[u8], at: usize| u16::from_le_bytes([entry[at], entry[at + 1]]);
        let entries = self.bytes[self.layout.section(ENTRIES)].chunks_exact(ENTRY_LEN);
        let used = entries.filter(|entry| entry[4] != 0);
        used.filter(|entry| wanted(number(entry, 0), number(entry, 2))).count() as u16
    }

    /// Entries of an unchecked image may name inodes beyond the count.
    fn kind(&self, number: u16) -> u8 {
        match usize::from(number) < self.layout.counts[INODES] {
            true => self.bytes[self.layout.position(INODES, number.into())],
            false => FREE,
        }
    }

    pub fn rows(&self) -> u8 {
        self.written.len() as u8
    }

    /// The rows' bodies are the records as the copy has them, since no record is written twice.
    pub fn write(&self, plan: &mut [u8]) {
        plan[..PLAN_LEN].fill(0);
        for (number, (group, place)) in self.written.iter().enumerate() {
            let body = body_position(number);
            let (len, offset) = (place.len() as u16, place.start as u16);
            let row = Row { group: *group, second: 0, len, offset, body: body as u16 };
            plan[number * ROW_LEN..(number + 1) * ROW_LEN].copy_from_slice(&row.encode());
            plan[body..body + place.len()].copy_from_slice(&self.bytes[place.clone()]);
        }
    }
}
