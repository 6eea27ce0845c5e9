//! Journal records that are not clear, alone and together with other damage.

use super::subject::{each, put_u16, Subject};
use super::{Clause, Images, LAYOUT_CLAUSES, RECORD_CLAUSES};
use crate::model::layout::JOURNAL;

const RECORD_LEN: usize = 32;

fn journal_at(subject: &Subject) -> usize {
    subject.layout.offsets[JOURNAL]
}

pub fn any_byte(subject: &Subject) -> Images {
    each((0..RECORD_LEN).collect(), &[1, 128, 255], |at, value| subject.poke(journal_at(subject) + at, value))
}

/// A byte after the mark is enough, though nothing is said to be pending.
pub fn without_mark(subject: &Subject) -> Images {
    each((1..RECORD_LEN).collect(), &[3, 64], |at, value| subject.poke(journal_at(subject) + at, value))
}

/// A pending record: mark, old slot, new slot, moved inode, target, old parent, freed text, time.
pub fn like_a_rename(subject: &Subject) -> Images {
    each(vec![1, 2, 5], &[(4, 65_535), (65_535, 65_535), (4, 0)], |slot, (target, text)| {
        let mut image = subject.bytes.clone();
        let at = journal_at(subject);
        image[at] = 1;
        for (i, number) in [slot, slot + 1, 3, target, 1, text].into_iter().enumerate() {
            put_u16(&mut image, at + 2 + 2 * i, number);
        }
        put_u16(&mut image, at + 16, 500);
        Some(image)
    })
}

fn with_first_damage(subject: &Subject, clauses: &[Clause]) -> Images {
    let damaged = clauses.iter().filter_map(|clause| (clause.images)(subject).into_iter().next());
    let mark = |(number, mut image): (usize, Vec<u8>)| {
        let at = journal_at(subject) + number % RECORD_LEN;
        image.get_mut(at).map(|byte| *byte = 1)?;
        Some(image)
    };
    damaged.enumerate().filter_map(mark).collect()
}

pub fn with_broken_records(subject: &Subject) -> Images {
    with_first_damage(subject, RECORD_CLAUSES)
}

pub fn with_broken_layout(subject: &Subject) -> Images {
    with_first_damage(subject, LAYOUT_CLAUSES)
}
