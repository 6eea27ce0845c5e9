//! Landing cases: rows that land, and rows, plans and images that are refused, a clause for each reason.

mod images;
pub mod part;
mod plans;
mod rows;

use crate::cases::damage::subject::{spread, Subject};
use crate::cases::random::Random;
use crate::model::layout::{ENTRIES, INODES, JOURNAL, SECTIONS, TEXTS};
use crate::model::numbers::{BUFFER_TOO_SHORT, DONE, INCONSISTENT, NOT_LANDABLE};
use crate::model::plan::{body_position, Row, BODY_LEN, PLAN_LEN, ROWS, ROW_LEN};
use crate::vectors::{Landing, LONGEST_PLAN};
use std::collections::BTreeSet;

pub type Landings = Vec<Landing>;

/// One kind of landing. Where the clause tells no number, the model's answer stands.
pub struct Clause {
    pub class: &'static str,
    pub name: &'static str,
    pub number: Option<u8>,
    pub landings: fn(&Subject, &mut Random) -> Landings,
}

type Make = fn(&Subject, &mut Random) -> Landings;

const fn clause(class: &'static str, name: &'static str, number: u8, landings: Make) -> Clause {
    Clause { class, name, number: Some(number), landings }
}

const fn open_clause(class: &'static str, name: &'static str, landings: Make) -> Clause {
    Clause { class, name, number: None, landings }
}

pub const CLAUSES: &[Clause] = &[
    clause("landable rows", "every section", DONE, rows::landable),
    clause("landable rows", "cleared records", DONE, rows::cleared),
    clause("landable rows", "plan of several rows", DONE, rows::one_of_many),
    clause("landable rows", "section starts", DONE, rows::section_starts),
    clause("dirty plans", "body past the length", DONE, plans::dirty_past_the_length),
    clause("dirty plans", "all other bytes", DONE, plans::dirty_elsewhere),
    clause("dirty plans", "plan longer than needed", DONE, plans::long),
    clause("damaged records", "any but the journal record", DONE, images::damaged_records),
    clause("damaged records", "journal record pending", DONE, images::journal_pending),
    clause("damaged records", "with a bad row", NOT_LANDABLE, images::damaged_with_a_bad_row),
    clause("row numbers", "too large", NOT_LANDABLE, rows::numbers_too_large),
    clause("row numbers", "right once cut to fewer bits", NOT_LANDABLE, rows::numbers_that_wrap),
    clause("row numbers", "rows inside the bodies", NOT_LANDABLE, rows::numbers_inside_bodies),
    clause("groups and second bytes", "group", NOT_LANDABLE, rows::groups),
    clause("groups and second bytes", "second byte", NOT_LANDABLE, rows::second_bytes),
    clause("groups and second bytes", "row of zeros", NOT_LANDABLE, rows::zero_rows),
    clause("body positions", "off the right one", NOT_LANDABLE, rows::body_positions),
    clause("body positions", "of another row", NOT_LANDABLE, rows::bodies_of_others),
    clause("offsets", "off a record's start", NOT_LANDABLE, rows::offsets_off_records),
    clause("offsets", "outside the bodies", NOT_LANDABLE, rows::offsets_outside),
    clause("lengths", "at inodes", NOT_LANDABLE, rows::lengths_at_inodes),
    clause("lengths", "at entries", NOT_LANDABLE, rows::lengths_at_entries),
    clause("lengths", "at texts", NOT_LANDABLE, rows::lengths_at_texts),
    clause("lengths", "at handles", NOT_LANDABLE, rows::lengths_at_handles),
    clause("lengths", "at the journal record", NOT_LANDABLE, rows::lengths_at_the_journal),
    clause("lengths", "over two records", NOT_LANDABLE, rows::two_records),
    clause("lengths", "section starts", NOT_LANDABLE, rows::section_starts_refused),
    clause("handles", "one or more of them", NOT_LANDABLE, rows::handles),
    clause("short plans", "good row and image", BUFFER_TOO_SHORT, plans::short),
    clause("short plans", "bad row", BUFFER_TOO_SHORT, plans::short_with_a_bad_row),
    clause("short plans", "broken layout", BUFFER_TOO_SHORT, plans::short_with_a_broken_layout),
    clause("broken layout", "good row", INCONSISTENT, images::broken_layout),
    clause("broken layout", "bad row", INCONSISTENT, images::broken_layout_with_a_bad_row),
    open_clause("random rows", "near a landable one", rows::random),
    open_clause("random rows", "any plan", plans::random),
];

/// The sections in whose records rows may land.
const WRITABLE: [usize; 4] = [INODES, ENTRIES, TEXTS, JOURNAL];

/// A stretch of the image, which may be no record: offset and length.
type Place = (usize, usize);

fn section_records(subject: &Subject, section: usize) -> impl Iterator<Item = Place> + '_ {
    let records = 0..subject.layout.counts[section];
    records.map(move |record| (subject.layout.position(section, record), SECTIONS[section].record_len))
}

/// Every place where a row may land.
fn all_records(subject: &Subject) -> BTreeSet<Place> {
    WRITABLE.into_iter().flat_map(|section| section_records(subject, section)).collect()
}

/// Some of them in each section, the first and the last included.
fn some_records(subject: &Subject) -> Vec<Place> {
    let some = |section: usize| {
        let records = spread((0..subject.layout.counts[section]).collect());
        records.into_iter().map(move |record| (subject.layout.position(section, record), SECTIONS[section].record_len))
    };
    WRITABLE.into_iter().flat_map(some).collect()
}

/// A row's number in the plan and its parts, about to become a landing.
struct Draft {
    number: usize,
    row: Row,
    plan: Vec<u8>,
}

impl Draft {
    /// A row that lands on the place if that is a record, with a body without zeros. Numbers beyond the ninth give a
    /// longer plan.
    fn new(number: usize, (offset, len): Place, random: &mut Random) -> Draft {
        let body = body_position(number);
        let mut plan = vec![0; if number < ROWS { PLAN_LEN } else { LONGEST_PLAN }];
        plan[body..body + len.min(BODY_LEN)].fill_with(|| 1 + random.byte() % 255);
        let row =
            Row { group: 1 + random.byte() % 4, second: 0, len: len as u16, offset: offset as u16, body: body as u16 };
        Draft { number, row, plan }
    }

    /// Changes a part of the row.
    fn with(mut self, change: impl FnOnce(&mut Row)) -> Draft {
        change(&mut self.row);
        self
    }

    fn plan(mut self) -> Vec<u8> {
        let at = self.number * ROW_LEN;
        self.plan[at..at + ROW_LEN].copy_from_slice(&self.row.encode());
        self.plan
    }

    fn on(self, image: &[u8]) -> Landing {
        let row = self.number as u64;
        Landing { image: image.to_vec(), plan: self.plan(), row }
    }
}

fn any_number(random: &mut Random) -> usize {
    random.below(ROWS)
}

fn any_record(subject: &Subject, random: &mut Random) -> Place {
    *random.pick(&some_records(subject))
}

/// A row that lands, under any number and on any record.
fn good(subject: &Subject, random: &mut Random) -> Draft {
    let (number, place) = (any_number(random), any_record(subject, random));
    Draft::new(number, place, random)
}

/// A row with one or two faults of any kind.
fn bad(subject: &Subject, random: &mut Random) -> Draft {
    let mut draft = good(subject, random);
    for _ in 0..1 + random.below(2) {
        draft = match random.below(5) {
            0 => draft.with(|row| row.group = 0),
            1 => draft.with(|row| row.second = 1),
            2 => draft.with(|row| row.len = 8),
            3 => draft.with(|row| row.offset |= 1),
            _ => draft.with(|row| row.body |= 1),
        };
    }
    draft
}

/// A landing for each record with each value.
fn for_records<T: Copy>(
    subject: &Subject,
    random: &mut Random,
    values: &[T],
    change: impl Fn(&mut Row, T),
) -> Landings {
    let mut landings = vec![];
    for place in some_records(subject) {
        for &value in values {
            let draft = Draft::new(any_number(random), place, random);
            landings.push(draft.with(|row| change(row, value)).on(&subject.bytes));
        }
    }
    landings
}

/// A landing for each place; rows over places that are records are left out.
fn on_other_places(subject: &Subject, random: &mut Random, places: Vec<(i64, usize)>) -> Landings {
    let records = all_records(subject);
    let fits = |&(offset, len): &(i64, usize)| (0..65_536).contains(&offset) && len < 65_536;
    let others = places.into_iter().filter(fits).map(|(offset, len)| (offset as usize, len));
    let others: Vec<Place> = others.filter(|place| !records.contains(place)).collect();
    others.into_iter().map(|place| Draft::new(any_number(random), place, random).on(&subject.bytes)).collect()
}

#[cfg(test)]
mod tests {
    use super::*;
    use crate::cases::trees::samples::samples;
    use crate::model::land::land;

    #[test]
    fn every_clause_is_answered_as_it_says() {
        for clause in CLAUSES {
            let mut random = Random::new(3);
            let subjects = samples().into_iter().map(|(_, tree)| Subject::new(tree));
            let landings: Landings =
                subjects.flat_map(|subject| (clause.landings)(&subject, &mut random)).take(2_000).collect();
            assert!(!landings.is_empty(), "{}: {} has no case", clause.class, clause.name);
            for Landing { mut image, plan, row } in landings {
                let number = land(&mut image, &plan, row);
                assert_eq!(number, clause.number.unwrap_or(number), "{}: {}", clause.class, clause.name);
            }
        }
    }
}
