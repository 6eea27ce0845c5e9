//! The journal record of an exchange (kind 7): its numbers, and whether they fit the image (rule 106a).
//!
//! At a crash either entry may have landed without the other, so the two slots may target moved and replaced in any of
//! four ways. A record that fits is always carried to its end: the record itself decides.

use super::journal::{exists, none_of, number_at, time_of, NONE};
use crate::model::image::{Entry, Image};
use crate::model::layout::{Layout, ENTRIES, INODES};
use crate::model::numbers::NOT_REPAIRABLE;
use crate::model::refusal::{Refusal, Rule};

pub struct Exchange {
    pub old_slot: u16,
    pub new_slot: u16,
    pub moved: u16,
    pub replaced: u16,
    pub old_parent: u16,
    text: u16,
    pub now: [u8; 8],
}

const fn unfit(clause: &'static str) -> Refusal {
    Refusal { rule: Rule::behind(106, 'a'), clause, number: NOT_REPAIRABLE }
}

type OutOfRange = fn(&Exchange, &Layout) -> bool;
type Misfit = fn(&Exchange, &Image) -> bool;
type OutOfPlace = fn(&Exchange, &Image, [Entry; 2]) -> bool;

const RANGES: [(Refusal, OutOfRange); 6] = [
    (unfit("exchange: old slot"), |exchange, layout| !exists(layout, ENTRIES, exchange.old_slot)),
    (unfit("exchange: new slot"), |exchange, layout| !exists(layout, ENTRIES, exchange.new_slot)),
    (unfit("exchange: moved"), |exchange, layout| !exists(layout, INODES, exchange.moved)),
    (unfit("exchange: replaced"), |exchange, layout| !exists(layout, INODES, exchange.replaced)),
    (unfit("exchange: from"), |exchange, layout| !exists(layout, INODES, exchange.old_parent)),
    (unfit("exchange: a text"), |exchange, _| exchange.text != NONE),
];

const FIT: [(Refusal, Misfit); 7] = [
    (unfit("exchange: one slot"), |exchange, _| exchange.old_slot == exchange.new_slot),
    (unfit("exchange: moved is root"), |exchange, _| exchange.moved == 0),
    (unfit("exchange: replaced is root"), |exchange, _| exchange.replaced == 0),
    (unfit("exchange: moved is replaced"), |exchange, _| exchange.moved == exchange.replaced),
    (unfit("exchange: moved is from"), |exchange, _| exchange.moved == exchange.old_parent),
    (unfit("exchange: replaced is from"), |exchange, _| exchange.replaced == exchange.old_parent),
    (unfit("exchange: from is no directory"), |exchange, image| !image.is_directory(exchange.old_parent)),
];

/// Of the two entries, the old slot's first.
const PLACES: [(Refusal, OutOfPlace); 8] = [
    (unfit("exchange: old slot is free"), |_, _, [old, _]| old.name_len() == 0),
    (unfit("exchange: new slot is free"), |_, _, [_, new]| new.name_len() == 0),
    (unfit("exchange: old slot leads elsewhere"), |exchange, _, [old, _]| !exchange.has(old.target())),
    (unfit("exchange: new slot leads elsewhere"), |exchange, _, [_, new]| !exchange.has(new.target())),
    (unfit("exchange: old slot is not in from"), |exchange, _, [old, _]| old.parent() != exchange.old_parent),
    (unfit("exchange: into is no directory"), |_, image, [_, new]| !image.is_directory(new.parent())),
    (unfit("exchange: into is moved"), |exchange, _, [_, new]| new.parent() == exchange.moved),
    (unfit("exchange: into is replaced"), |exchange, _, [_, new]| new.parent() == exchange.replaced),
];

pub fn refusals() -> impl Iterator<Item = Refusal> {
    let ranges = RANGES.iter().map(|(refusal, _)| *refusal);
    let fit = FIT.iter().map(|(refusal, _)| *refusal);
    ranges.chain(fit).chain(PLACES.iter().map(|(refusal, _)| *refusal))
}

impl Exchange {
    pub fn read(image: &Image, layout: &Layout) -> Result<Exchange, Refusal> {
        let exchange = Exchange::numbers(image.journal);
        none_of(&RANGES, |is_out_of_range| is_out_of_range(&exchange, layout))?;
        none_of(&FIT, |is_unfit| is_unfit(&exchange, image))?;
        let entries = exchange.entries(image);
        none_of(&PLACES, |is_out_of_place| is_out_of_place(&exchange, image, entries))?;
        Ok(exchange)
    }

    fn numbers(record: &[u8]) -> Exchange {
        Exchange {
            old_slot: number_at(record, 2),
            new_slot: number_at(record, 4),
            moved: number_at(record, 6),
            replaced: number_at(record, 8),
            old_parent: number_at(record, 10),
            text: number_at(record, 12),
            now: time_of(record),
        }
    }

    /// Both slots are in range here.
    fn entries<'a>(&self, image: &Image<'a>) -> [Entry<'a>; 2] {
        let free = Entry(&[0; 32]);
        [self.old_slot, self.new_slot].map(|slot| image.entries().nth(slot.into()).unwrap_or(free))
    }

    fn has(&self, inode: u16) -> bool {
        [self.moved, self.replaced].contains(&inode)
    }

    /// The directory of the new slot's name.
    pub fn new_parent(&self, image: &Image) -> u16 {
        self.entries(image)[1].parent()
    }
}
