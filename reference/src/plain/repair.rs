//! The repair (rules 102 to 111): the outcome is made and checked in scratch, and then its records become the rows.

use super::check::{check, is_consistent};
use super::image::Image;
use super::journal::{Exchange, Journal, Pending};
use super::rows::{put_u16, Rows, JOURNAL_LAST, NEW_NAME, THE_REST};
use crate::model::image::{Entry, DIRECTORY};
use crate::model::layout::{ENTRIES, INODES, JOURNAL, TEXTS};
use crate::model::numbers::{BUFFER_TOO_SHORT, DONE, INCONSISTENT, NOT_REPAIRABLE};
use crate::model::plan::{PLAN_LEN, ROWS};
use crate::model::repair::Answer;
use std::ops::Range;

/// Answers for any bytes. What each number leaves in the buffers is the model's.
pub fn repair(bytes: &[u8], plan: &mut [u8], scratch: &mut [u8]) -> Answer {
    if plan.len() < PLAN_LEN || scratch.len() < bytes.len() {
        return Answer { number: BUFFER_TOO_SHORT, rows: 0 };
    }
    let Some(image) = Image::read(bytes) else {
        return Answer { number: INCONSISTENT, rows: 0 };
    };
    let scratch = &mut scratch[..bytes.len()];
    if image.journal_is_clear() {
        return unchanged(bytes, &image, plan, scratch);
    }
    match outcome(bytes, &image, scratch) {
        Some(written) => {
            let mut rows = Rows::new(plan);
            written.into_iter().for_each(|(group, place)| rows.put(group, place.start, &scratch[place]));
            Answer { number: DONE, rows: rows.count }
        }
        None => {
            scratch.fill(0);
            Answer { number: NOT_REPAIRABLE, rows: 0 }
        }
    }
}

/// Rule 103.
fn unchanged(bytes: &[u8], image: &Image, plan: &mut [u8], scratch: &mut [u8]) -> Answer {
    if !is_consistent(image) {
        return Answer { number: INCONSISTENT, rows: 0 };
    }
    scratch.copy_from_slice(bytes);
    Answer { number: DONE, rows: Rows::new(plan).count }
}

/// The places of the records that have been written, with their groups. No record is written twice.
type Written = Vec<(u8, Range<usize>)>;

/// Nothing where the journal record does not fit, or where what it leads to is not consistent (rules 104 to 109).
fn outcome(bytes: &[u8], image: &Image, scratch: &mut [u8]) -> Option<Written> {
    let pending = Pending::read(image)?;
    scratch.copy_from_slice(bytes);
    let mut redo = Redo { image, scratch, written: Vec::with_capacity(ROWS) };
    match pending {
        Pending::Rename(journal) => journal.into.into_iter().for_each(|into| redo.finish(&journal, into)),
        Pending::Exchange(exchange) => redo.exchange(&exchange),
    }
    redo.clear(JOURNAL_LAST, image.offsets[JOURNAL], 32);
    let written = redo.written;
    (check(scratch) == DONE).then_some(written)
}

struct Redo<'a> {
    image: &'a Image<'a>,
    scratch: &'a mut [u8],
    written: Written,
}

/// What is counted over the entries as they stand with the old one cleared (rule 108).
#[derive(Default)]
struct Counts {
    in_from: u16,
    in_into: u16,
    in_replaced: u16,
    of_replaced: u16,
}

impl Counts {
    /// Directories below from, into and replaced, and names of replaced, in one pass.
    fn new(image: &Image, journal: &Journal, into: u16) -> Counts {
        let mut counts = Counts::default();
        for (slot, record) in image.entries.iter().enumerate() {
            let entry = Entry(record);
            if entry.name_len() == 0 || slot == usize::from(journal.old_slot) {
                continue;
            }
            let directory = u16::from(image.is_directory(entry.target()));
            let is_in = |holder: u16| u16::from(entry.parent() == holder) & directory;
            counts.in_from += is_in(journal.from);
            counts.in_into += is_in(into);
            counts.in_replaced += journal.replaced.map_or(0, is_in);
            counts.of_replaced += u16::from(Some(entry.target()) == journal.replaced);
        }
        counts
    }
}

/// Directories below from and into once both entries are exchanged, whatever they target as they stand.
fn subdirectories(image: &Image, exchange: &Exchange) -> [u16; 2] {
    let mut counts = [0; 2];
    for (slot, record) in (0..).zip(image.entries) {
        let entry = Entry(record);
        let target = match slot {
            slot if slot == exchange.old_slot => exchange.replaced,
            slot if slot == exchange.new_slot => exchange.moved,
            _ => entry.target(),
        };
        let counted = u16::from(entry.name_len() != 0 && image.is_directory(target));
        counts[0] += u16::from(entry.parent() == exchange.from) & counted;
        counts[1] += u16::from(entry.parent() == exchange.into) & counted;
    }
    counts
}

impl Redo<'_> {
    /// Rule 108.
    fn finish(&mut self, journal: &Journal, into: u16) {
        let counts = Counts::new(self.image, journal, into);
        self.clear(THE_REST, self.image.offsets[ENTRIES] + 32 * usize::from(journal.old_slot), 32);
        self.write_moved(journal.moved, into, journal.now);
        self.write_parent(journal.from, 2 + counts.in_from, journal.now);
        if into != journal.from {
            self.write_parent(into, 2 + counts.in_into, journal.now);
        }
        if let Some(replaced) = journal.replaced {
            self.write_replaced(replaced, &counts, journal.now);
        }
        if let Some(text) = journal.freed_text {
            self.clear(THE_REST, self.image.offsets[TEXTS] + 64 * usize::from(text), 64);
        }
    }

    /// Rule 108a.
    fn exchange(&mut self, exchange: &Exchange) {
        let Exchange { from, into, now, .. } = *exchange;
        let [in_from, in_into] = subdirectories(self.image, exchange);
        self.write_target(exchange.old_slot, exchange.replaced);
        self.write_target(exchange.new_slot, exchange.moved);
        self.write_moved(exchange.moved, into, now);
        self.write_parent(from, 2 + in_from, now);
        if into != from {
            self.write_parent(into, 2 + in_into, now);
        }
        self.write_moved(exchange.replaced, from, now);
    }

    fn write_target(&mut self, slot: u16, target: u16) {
        let start = self.image.offsets[ENTRIES] + 32 * usize::from(slot);
        self.written.push((NEW_NAME, start..start + 32));
        put_u16(&mut self.scratch[start..start + 32], 2, target);
    }

    fn clear(&mut self, group: u8, start: usize, len: usize) {
        self.scratch[start..start + len].fill(0);
        self.written.push((group, start..start + len));
    }

    /// An inode's record in scratch, which becomes a row.
    fn inode(&mut self, number: u16) -> &mut [u8] {
        let start = self.image.offsets[INODES] + 32 * usize::from(number);
        self.written.push((THE_REST, start..start + 32));
        &mut self.scratch[start..start + 32]
    }

    /// Rule 89.
    fn write_moved(&mut self, moved: u16, into: u16, now: [u8; 8]) {
        let record = self.inode(moved);
        record[24..].copy_from_slice(&now);
        if record[0] == DIRECTORY {
            put_u16(record, 14, into);
        }
    }

    /// Rule 90.
    fn write_parent(&mut self, directory: u16, links: u16, now: [u8; 8]) {
        let record = self.inode(directory);
        put_u16(record, 12, links);
        record[16..24].copy_from_slice(&now);
        record[24..].copy_from_slice(&now);
    }

    /// Rule 91.
    fn write_replaced(&mut self, number: u16, counts: &Counts, now: [u8; 8]) {
        let record = self.inode(number);
        if counts.of_replaced == 0 {
            record.fill(0);
            return;
        }
        let links = if record[0] == DIRECTORY { 2 + counts.in_replaced } else { counts.of_replaced };
        put_u16(record, 12, links);
        record[24..].copy_from_slice(&now);
    }
}
