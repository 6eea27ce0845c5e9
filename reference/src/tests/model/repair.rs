//! Repair on the bench tree: told answers, all journal records in range, damaged images and any bytes.

use crate::cases::damage::subject::Subject;
use crate::cases::damage::{random_changes, LAYOUT_CLAUSES, RECORD_CLAUSES};
use crate::cases::random::Random;
use crate::cases::trees::bench::bench_tree;
use crate::cases::trees::samples::samples;
use crate::explore::PlannedRename;
use crate::model::check::{broken_rules, check};
use crate::model::land::land;
use crate::model::layout::JOURNAL;
use crate::model::numbers::{DONE, INCONSISTENT, JOURNAL_PENDING, NOT_REPAIRABLE};
use crate::model::permission::Credentials;
use crate::model::plan::{Row, PLAN_LEN};
use crate::model::repair::{repair, Answer};
use crate::model::request::{Operand, Request, CURRENT};

const NONE: u16 = 65_535;

/// A buffer whose bytes tell where they are.
fn dirty(len: usize) -> Vec<u8> {
    (0..len).map(|at| 0x5a ^ at as u8).collect()
}

/// Repairs with buffers longer than needed, and asserts all that holds of the buffers, whatever the image is.
fn answer(image: &[u8]) -> (Answer, Vec<u8>, Vec<u8>) {
    let (mut plan, mut scratch) = (dirty(PLAN_LEN + 5), dirty(image.len() + 3));
    let answer = repair(image, &mut plan, &mut scratch);
    let written = if answer.number == DONE { PLAN_LEN } else { 0 };
    assert_eq!(plan[written..], dirty(PLAN_LEN + 5)[written..]);
    assert_eq!(scratch[image.len()..], dirty(image.len() + 3)[image.len()..]);
    scratch.truncate(image.len());
    match answer.number {
        DONE => assert_eq!(check(&scratch), DONE),
        NOT_REPAIRABLE => assert_eq!(scratch, vec![0; image.len()]),
        number => {
            assert_eq!(number, INCONSISTENT);
            assert_eq!(scratch, dirty(image.len()));
        }
    }
    assert!(answer.number == DONE || answer.rows == 0);
    (answer, plan, scratch)
}

fn planned(old: &str, new: &str) -> PlannedRename {
    let operand = |path: &str| Operand::new(CURRENT, path.as_bytes());
    let who = Credentials::new(100, 100);
    let request = Request { who, current: 0, flags: 0, old: operand(old), new: operand(new) };
    PlannedRename::new(&bench_tree().encode(), &request, 500).expect("the rename has rows")
}

/// The bench tree with a journal record of these numbers and the time 500.
fn with_numbers(numbers: [u16; 6]) -> Vec<u8> {
    let mut image = bench_tree().encode();
    image[592] = 1;
    for (i, number) in numbers.into_iter().enumerate() {
        image[594 + 2 * i..596 + 2 * i].copy_from_slice(&number.to_le_bytes());
    }
    image[608..610].copy_from_slice(&500u16.to_le_bytes());
    image
}

#[test]
fn a_clear_journal_record_leaves_nothing_to_do() {
    for (name, tree) in samples() {
        let image = tree.encode();
        let (answer, plan, scratch) = answer(&image);
        assert_eq!(answer, Answer { number: DONE, rows: 0 }, "{name}");
        assert_eq!((&plan[..PLAN_LEN], scratch), (&[0; PLAN_LEN][..], image));
    }
}

#[test]
fn a_rename_is_taken_back_until_its_new_name_has_landed() {
    let planned = planned("/a/f", "/b/g");
    let (answer, plan, scratch) = answer(&planned.after([0]));
    assert_eq!(answer, Answer { number: DONE, rows: 1 });
    assert_eq!(plan[..8], [4, 0, 32, 0, 80, 2, 72, 0]);
    assert_eq!(plan[8..PLAN_LEN], [0; PLAN_LEN - 8]);
    assert_eq!(scratch, planned.before);
}

/// The third plan of the bench lines without its first two rows.
#[test]
fn a_rename_is_finished_once_its_new_name_has_landed() {
    let planned = planned("/a/f", "/b/g");
    let (answer, plan, scratch) = answer(&planned.after([0, 1]));
    assert_eq!(answer, Answer { number: DONE, rows: 6 });
    let offsets = [(3, 360), (3, 136), (3, 72), (3, 104), (3, 168), (4, 592)];
    for (number, (group, offset)) in (0..).zip(offsets) {
        let row = Row { group, second: 0, len: 32, offset, body: 72 + 64 * number as u16 };
        assert_eq!(Row::read(&plan, number), row);
    }
    assert_eq!(plan[48..72], [0; 24]);
    assert_eq!(scratch, planned.finished);
}

/// Numbers of the journal record on the bench tree: the two slots, moved, replaced, old parent, text.
#[test]
fn journal_records_that_do_not_fit_are_refused() {
    let right = [3, 7, 3, NONE, 1, NONE];
    assert_eq!(answer(&with_numbers(right)).0, Answer { number: DONE, rows: 1 });
    let wrong = [
        [8, 7, 3, NONE, 1, NONE],
        [3, 8, 3, NONE, 1, NONE],
        [3, 3, 3, NONE, 1, NONE],
        [3, 7, 0, NONE, 1, NONE],
        [3, 7, 7, NONE, 1, NONE],
        [3, 7, 1, NONE, 1, NONE],
        [3, 7, 3, 3, 1, NONE],
        [3, 7, 3, 1, 1, NONE],
        [3, 7, 3, 7, 1, NONE],
        [3, 7, 3, NONE, 7, NONE],
        [3, 7, 3, NONE, 4, NONE],
        [3, 7, 3, NONE, NONE, NONE],
        [3, 7, NONE, NONE, 1, NONE],
        [NONE, 7, 3, NONE, 1, NONE],
        [3, NONE, 3, NONE, 1, NONE],
        [3, 7, 3, NONE, 1, 1],
    ];
    for numbers in wrong {
        assert_eq!(answer(&with_numbers(numbers)).0.number, NOT_REPAIRABLE, "{numbers:?}");
    }
}

/// Slot 0 is /a and slot 2 is /s. No rename writes such a record; but its outcome is consistent, as the rules ask.
#[test]
fn a_journal_record_may_name_an_entry_of_the_replaced_inode() {
    let (answer, _, scratch) = answer(&with_numbers([2, 0, 1, 6, 0, 0]));
    assert_eq!(answer, Answer { number: DONE, rows: 6 });
    assert_eq!(scratch[264 + 64..264 + 96], [0; 32]);
    assert_eq!(scratch[40 + 6 * 32..40 + 7 * 32], [0; 32]);
    assert_eq!(scratch[520..584], [0; 64]);
}

/// Every journal record on the bench tree whose numbers are in range, by its number: two slots of eight, one of seven
/// inodes, one or none, one of seven again, one text or none.
fn numbers_in_range(which: u16) -> [u16; 6] {
    let perhaps = |number: u16, count: u16| if number < count { number } else { NONE };
    let (inodes, rest) = (which / 64 % 56, which / 64 / 56);
    [which % 8, which / 8 % 8, inodes % 7, perhaps(inodes / 7, 7), rest % 7, perhaps(rest / 7, 1)]
}

/// Refused, taken back, finished with no entry cleared, with one cleared, and with an inode freed too.
fn fate(image: &[u8]) -> usize {
    let (answer, _, scratch) = answer(image);
    let used = |image: &[u8]| image[264..520].chunks_exact(32).filter(|entry| entry[4] != 0).count();
    let freed = (1..7).any(|inode| scratch[40 + 32 * inode] == 0);
    match (answer.number, answer.rows, used(&scratch) < used(image), freed) {
        (NOT_REPAIRABLE, ..) => 0,
        (_, 1, ..) => 1,
        (_, _, false, _) => 2,
        (_, _, true, false) => 3,
        (_, _, true, true) => 4,
    }
}

#[test]
fn journal_records_in_range_are_counted() {
    let mut counts = [0; 5];
    for which in 0..8 * 8 * 7 * 8 * 7 * 2 {
        counts[fate(&with_numbers(numbers_in_range(which)))] += 1;
    }
    assert_eq!(counts, [37_960, 12_012, 121, 34, 49]);
}

#[test]
fn broken_images_are_refused_under_every_journal_record() {
    let subject = Subject::new(bench_tree());
    let journal = subject.layout.offsets[JOURNAL];
    for clause in LAYOUT_CLAUSES {
        for mut image in (clause.images)(&subject) {
            assert_eq!(answer(&image).0.number, INCONSISTENT, "{}", clause.name);
            image.iter_mut().skip(journal).for_each(|byte| *byte = 1);
            assert_eq!(answer(&image).0.number, INCONSISTENT, "{}", clause.name);
        }
    }
    for clause in RECORD_CLAUSES {
        for mut image in (clause.images)(&subject) {
            assert_eq!(answer(&image).0.number, INCONSISTENT, "{}", clause.name);
            assert!(clause.breaks.is_among(&broken_rules(&image)));
            image[journal] = 1;
            assert_eq!(check(&image), JOURNAL_PENDING);
            assert_eq!(answer(&image).0.number, NOT_REPAIRABLE, "{}", clause.name);
        }
    }
}

#[test]
fn any_bytes_are_answered() {
    let random = &mut Random::new(15);
    let images = [planned("/a/f", "/b/g").after([0, 1]), planned("/a/d", "/b/e").after([0, 1, 4])];
    let mut repaired = 0;
    for round in 0..40_000 {
        let mut image = images[round % 2].clone();
        for _ in 0..random.below(3) {
            let at = if random.one_in(3) { 592 + random.below(32) } else { random.below(image.len()) };
            image[at] = if random.one_in(2) { random.byte() } else { random.below(9) as u8 };
        }
        let (answer, plan, scratch) = answer(&image);
        let landed = (0..answer.rows.into()).all(|row| land(&mut image, &plan, row) == DONE);
        assert!(landed && (answer.number != DONE || image == scratch));
        repaired += usize::from(answer.number == DONE);
    }
    assert!(repaired > 5_000, "{repaired} are repaired");
    let subject = Subject::new(bench_tree());
    (0..5_000).for_each(|_| assert!(answer(&random_changes::flip(&subject, random)).0.rows <= 8));
}
