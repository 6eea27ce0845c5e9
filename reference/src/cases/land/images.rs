//! Landings on damaged images: the layout alone is looked at.

use super::{any_number, bad, good, Draft, Landings};
use crate::cases::damage::subject::Subject;
use crate::cases::damage::{Breaks, Clause, JOURNAL_CLAUSES, LAYOUT_CLAUSES, RECORD_CLAUSES};
use crate::cases::random::Random;
use crate::model::layout::{Layout, JOURNAL, SECTIONS};
use crate::vectors::{edits, Landing};

/// Some images of each clause, those that a case can tell as edits.
fn damaged<'a>(
    subject: &'a Subject,
    clauses: &'a [Clause],
    wanted: fn(Breaks) -> bool,
) -> impl Iterator<Item = Vec<u8>> + 'a {
    let clauses = clauses.iter().filter(move |clause| wanted(clause.breaks));
    clauses.flat_map(|clause| {
        let images = (clause.images)(subject).into_iter();
        images.filter(|image| edits(&subject.bytes, image).is_some()).step_by(3).take(4)
    })
}

/// Rows laid out for the undamaged image land only where the damage leaves the layout.
fn same_layout(subject: &Subject, image: &[u8]) -> bool {
    Layout::read(image).is_some_and(|layout| layout == subject.layout)
}

pub fn damaged_records(subject: &Subject, random: &mut Random) -> Landings {
    let images = damaged(subject, RECORD_CLAUSES, |_| true).filter(|image| same_layout(subject, image));
    images.map(|image| good(subject, random).on(&image)).collect()
}

pub fn journal_pending(subject: &Subject, random: &mut Random) -> Landings {
    let journal = (subject.layout.offsets[JOURNAL], SECTIONS[JOURNAL].record_len);
    let pending = |image: Vec<u8>| match random.one_in(3) {
        true => Draft::new(any_number(random), journal, random).on(&image),
        false => good(subject, random).on(&image),
    };
    damaged(subject, JOURNAL_CLAUSES, |breaks| breaks == Breaks::Journal).map(pending).collect()
}

pub fn damaged_with_a_bad_row(subject: &Subject, random: &mut Random) -> Landings {
    let records = damaged(subject, RECORD_CLAUSES, |_| true).filter(|image| same_layout(subject, image));
    let journal = damaged(subject, JOURNAL_CLAUSES, |breaks| breaks == Breaks::Journal);
    records.chain(journal).map(|image| bad(subject, random).on(&image)).collect()
}

pub fn broken_layout(subject: &Subject, random: &mut Random) -> Landings {
    damaged(subject, LAYOUT_CLAUSES, |_| true).map(|image| good(subject, random).on(&image)).collect()
}

/// The row or its number is bad too.
pub fn broken_layout_with_a_bad_row(subject: &Subject, random: &mut Random) -> Landings {
    let land = |image: Vec<u8>| match random.one_in(3) {
        true => Landing { row: u64::MAX, ..good(subject, random).on(&image) },
        false => bad(subject, random).on(&image),
    };
    damaged(subject, LAYOUT_CLAUSES, |_| true).map(land).collect()
}
