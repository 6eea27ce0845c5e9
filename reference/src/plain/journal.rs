//! The journal record of a rename or of an exchange, read and fitted to the image (rules 104 to 108).

use super::exchange::EXCHANGE_KIND;
use super::image::Image;
use super::rows::NONE;
use crate::model::image::Entry;

const PENDING: u8 = 1;
const RENAME_KIND: u8 = 0;

/// What a crash has left unfinished.
pub enum Pending {
    Rename(Journal),
    Exchange(Exchange),
}

pub struct Exchange {
    pub old_slot: u16,
    pub new_slot: u16,
    pub moved: u16,
    pub replaced: u16,
    pub from: u16,
    /// The directory in which the new slot's name is.
    pub into: u16,
    pub now: [u8; 8],
}

pub struct Journal {
    pub old_slot: u16,
    pub moved: u16,
    pub replaced: Option<u16>,
    pub from: u16,
    pub freed_text: Option<u16>,
    pub now: [u8; 8],
    /// The directory in which the new name is; nothing where it has not landed.
    pub into: Option<u16>,
}

fn exists<T>(records: &[T], number: u16) -> bool {
    usize::from(number) < records.len()
}

fn number(record: &[u8; 32], at: usize) -> u16 {
    u16::from_le_bytes([record[at], record[at + 1]])
}

fn time(record: &[u8; 32]) -> [u8; 8] {
    std::array::from_fn(|i| record[16 + i])
}

impl Pending {
    /// Nothing where the record does not fit.
    pub fn read(image: &Image) -> Option<Pending> {
        let record = image.journal;
        if record[14..16] != [0; 2] || record[24..] != [0; 8] {
            return None;
        }
        match [record[0], record[1]] {
            [PENDING, RENAME_KIND] => Journal::read(image).map(Pending::Rename),
            [PENDING, EXCHANGE_KIND] => Exchange::read(image).map(Pending::Exchange),
            _ => None,
        }
    }
}

impl Exchange {
    /// Rule 106a.
    fn read(image: &Image) -> Option<Exchange> {
        let number = |at: usize| number(image.journal, at);
        let entry = |slot: u16| image.entries.get(usize::from(slot)).map(|record| Entry(record));
        let (old, new) = entry(number(2)).zip(entry(number(4)))?;
        let exchange = Exchange {
            old_slot: number(2),
            new_slot: number(4),
            moved: number(6),
            replaced: number(8),
            from: number(10),
            into: new.parent(),
            now: time(image.journal),
        };
        let both = [exchange.moved, exchange.replaced];
        let names_one = |entry: Entry| entry.name_len() != 0 && both.contains(&entry.target());
        let fits = number(12) == NONE && exchange.numbers_fit(image) && old.parent() == exchange.from;
        (fits && names_one(old) && names_one(new)).then_some(exchange)
    }

    fn numbers_fit(&self, image: &Image) -> bool {
        let both = [self.moved, self.replaced];
        let parents = [self.from, self.into];
        self.old_slot != self.new_slot
            && self.moved != self.replaced
            && both.iter().all(|number| *number != 0 && exists(image.inodes, *number) && !parents.contains(number))
            && parents.iter().all(|parent| image.is_directory(*parent))
    }
}

impl Journal {
    fn read(image: &Image) -> Option<Journal> {
        let number = |at: usize| number(image.journal, at);
        let perhaps = |at: usize| Some(number(at)).filter(|&number| number != NONE);
        let (moved, new_slot) = (number(6), number(4));
        let entry = image.entries.get(usize::from(new_slot)).map(|record| Entry(record))?;
        let has_landed = entry.name_len() != 0 && entry.target() == moved;
        let journal = Journal {
            old_slot: number(2),
            moved,
            replaced: perhaps(8),
            from: number(10),
            freed_text: perhaps(12),
            now: time(image.journal),
            into: has_landed.then(|| entry.parent()),
        };
        (journal.old_slot != new_slot && journal.fits(image)).then_some(journal)
    }

    /// Rules 105, 106 and 108, but for the slots' difference.
    fn fits(&self, image: &Image) -> bool {
        exists(image.entries, self.old_slot)
            && exists(image.inodes, self.moved)
            && self.replaced.is_none_or(|replaced| exists(image.inodes, replaced))
            && self.freed_text.is_none_or(|text| exists(image.texts, text))
            && image.is_directory(self.from)
            && self.moved != 0
            && self.moved != self.from
            && self.replaced.is_none_or(|replaced| replaced != self.moved && replaced != self.from)
            && self.into.is_none_or(|into| self.may_be_in(image, into))
    }

    fn may_be_in(&self, image: &Image, into: u16) -> bool {
        image.is_directory(into) && into != self.moved && self.replaced != Some(into)
    }
}
