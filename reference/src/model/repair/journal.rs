//! The journal record as repair reads it: what it says, and whether it fits the image.

use super::exchange::{self, Exchange};
use crate::model::image::Image;
use crate::model::layout::{Layout, ENTRIES, INODES, TEXTS};
use crate::model::numbers::NOT_REPAIRABLE;
use crate::model::refusal::Refusal;

/// What stands in place of a replaced inode or a freed text, where there is none. No record has that number.
pub(super) const NONE: u16 = 65_535;

const PENDING: u8 = 1;

/// The kinds of operations, in the byte behind the mark.
const RENAME: u8 = 0;
const EXCHANGE: u8 = 7;

/// The two bytes behind the numbers, and the last eight.
const ZEROS: [usize; 10] = [14, 15, 24, 25, 26, 27, 28, 29, 30, 31];

/// A record that fits, by its kind.
pub enum Record {
    Rename(Journal),
    Exchange(Exchange),
}

pub struct Journal {
    pub old_slot: u16,
    pub new_slot: u16,
    pub moved: u16,
    pub replaced: Option<u16>,
    pub old_parent: u16,
    pub freed_text: Option<u16>,
    pub now: [u8; 8],
}

const fn unfit(rule: u8, clause: &'static str) -> Refusal {
    Refusal::new(rule, clause, NOT_REPAIRABLE)
}

type OutOfForm = fn(&[u8]) -> bool;
type Misfit = fn(&Journal, &Image, &Layout) -> bool;
type OutOfPlace = fn(&Journal, &Image, u16) -> bool;

/// Of the record's bytes alone.
const FORM: [(Refusal, OutOfForm); 3] = [
    (unfit(104, "mark"), |record| record[0] != PENDING),
    (unfit(104, "kind"), |record| ![RENAME, EXCHANGE].contains(&record[1])),
    (unfit(104, "zeros"), |record| ZEROS.iter().any(|&at| record[at] != 0)),
];

/// Of the numbers of a rename.
const FIT: [(Refusal, Misfit); 12] = [
    (unfit(105, "old slot"), |journal, _, layout| !exists(layout, ENTRIES, journal.old_slot)),
    (unfit(105, "new slot"), |journal, _, layout| !exists(layout, ENTRIES, journal.new_slot)),
    (unfit(105, "moved"), |journal, _, layout| !exists(layout, INODES, journal.moved)),
    (unfit(105, "replaced"), |journal, _, layout| journal.replaced.is_some_and(|it| !exists(layout, INODES, it))),
    (unfit(105, "from"), |journal, _, layout| !exists(layout, INODES, journal.old_parent)),
    (unfit(105, "text"), |journal, _, layout| journal.freed_text.is_some_and(|it| !exists(layout, TEXTS, it))),
    (unfit(106, "one slot"), |journal, _, _| journal.old_slot == journal.new_slot),
    (unfit(106, "moved is root"), |journal, _, _| journal.moved == 0),
    (unfit(106, "moved is from"), |journal, _, _| journal.moved == journal.old_parent),
    (unfit(106, "moved is replaced"), |journal, _, _| journal.replaced == Some(journal.moved)),
    (unfit(106, "replaced is from"), |journal, _, _| journal.replaced == Some(journal.old_parent)),
    (unfit(106, "from is no directory"), |journal, image, _| !image.is_directory(journal.old_parent)),
];

/// Of the directory in which the new name has landed.
const INTO: [(Refusal, OutOfPlace); 3] = [
    (unfit(108, "into is no directory"), |_, image, into| !image.is_directory(into)),
    (unfit(108, "into is moved"), |journal, _, into| journal.moved == into),
    (unfit(108, "into is replaced"), |journal, _, into| journal.replaced == Some(into)),
];

pub fn refusals() -> impl Iterator<Item = Refusal> {
    let form = FORM.iter().map(|(refusal, _)| *refusal);
    let of_a_rename = FIT.iter().map(|(refusal, _)| *refusal).chain(INTO.iter().map(|(refusal, _)| *refusal));
    form.chain(of_a_rename).chain(exchange::refusals())
}

pub(super) fn exists(layout: &Layout, section: usize, number: u16) -> bool {
    usize::from(number) < layout.counts[section]
}

/// The two bytes of a record at some place, as a number.
pub(super) fn number_at(record: &[u8], at: usize) -> u16 {
    u16::from_le_bytes([record[at], record[at + 1]])
}

pub(super) fn time_of(record: &[u8]) -> [u8; 8] {
    std::array::from_fn(|i| record[16 + i])
}

/// The first that applies, as an error.
pub(super) fn none_of<T>(refusals: &[(Refusal, T)], applies: impl Fn(&T) -> bool) -> Result<(), Refusal> {
    refusals.iter().find(|(_, test)| applies(test)).map_or(Ok(()), |(refusal, _)| Err(*refusal))
}

impl Record {
    /// A record that fits: rules 104 to 106a.
    pub fn read(image: &Image, layout: &Layout) -> Result<Record, Refusal> {
        none_of(&FORM, |is_out_of_form| is_out_of_form(image.journal))?;
        match image.journal[1] {
            EXCHANGE => Exchange::read(image, layout).map(Record::Exchange),
            _ => Journal::read(image, layout).map(Record::Rename),
        }
    }
}

impl Journal {
    fn read(image: &Image, layout: &Layout) -> Result<Journal, Refusal> {
        let journal = Journal::numbers(image.journal);
        none_of(&FIT, |is_unfit| is_unfit(&journal, image, layout))?;
        Ok(journal)
    }

    fn numbers(record: &[u8]) -> Journal {
        let perhaps = |at: usize| Some(number_at(record, at)).filter(|&number| number != NONE);
        Journal {
            old_slot: number_at(record, 2),
            new_slot: number_at(record, 4),
            moved: number_at(record, 6),
            replaced: perhaps(8),
            old_parent: number_at(record, 10),
            freed_text: perhaps(12),
            now: time_of(record),
        }
    }

    /// Rules 107 and 108: the directory in which the new name is; nothing where it has not landed.
    pub fn new_parent(&self, image: &Image) -> Result<Option<u16>, Refusal> {
        let entry = image.entries().nth(self.new_slot.into());
        let landed = entry.filter(|entry| entry.name_len() != 0 && entry.target() == self.moved);
        let into = landed.map(|entry| entry.parent());
        if let Some(into) = into {
            none_of(&INTO, |is_out_of_place| is_out_of_place(self, image, into))?;
        }
        Ok(into)
    }
}
