//! Repairs and plans that are wrong: the explorer has to report each of them. The scratch is right, so that only what
//! is landed tells.

use super::planned;
use crate::cases::trees::bench::bench_tree;
use crate::cases::trees::for_crashes::crash_tree;
use crate::explore::{explore, Breach, PlannedRename, Repair};
use crate::model::image::{Image, Inode};
use crate::model::layout::{Layout, ENTRIES, JOURNAL, TEXTS};
use crate::model::numbers::{DONE, INCONSISTENT, NOT_LANDABLE, NOT_REPAIRABLE};
use crate::model::plan::{body_position, Row, PLAN_LEN, ROW_LEN};
use crate::model::repair::{repair, Answer};

/// The file p/f, which has no other name, onto the file q/x, which is freed.
fn onto_a_file() -> PlannedRename {
    planned(&crash_tree(), "/p/f", "/q/x")
}

/// The directory a/d into b.
fn of_a_directory() -> PlannedRename {
    planned(&bench_tree(), "/a/d", "/b/e")
}

fn u16_at(bytes: &[u8], at: usize) -> u16 {
    u16::from_le_bytes([bytes[at], bytes[at + 1]])
}

fn put_u16(bytes: &mut [u8], at: usize, value: u16) {
    bytes[at..at + 2].copy_from_slice(&value.to_le_bytes());
}

fn journal_at(image: &[u8]) -> usize {
    Layout::read(image).expect("the layout is right").offsets[JOURNAL]
}

/// The old parent as the journal record has it.
fn old_parent(image: &[u8]) -> u16 {
    u16_at(image, journal_at(image) + 10)
}

/// The right answer, and whether it is to carry the rename to its end.
fn right(image: &[u8], plan: &mut [u8], scratch: &mut [u8]) -> (Answer, bool) {
    let answer = repair(image, plan, scratch);
    (answer, answer.number == DONE && answer.rows > 1)
}

/// The place of the old parent's link count: in the third row's body.
const OLD_PARENT_LINKS: usize = 72 + 2 * 64 + 12;

fn idle(image: &[u8], plan: &mut [u8], scratch: &mut [u8]) -> Answer {
    match repair(image, plan, scratch) {
        Answer { number: DONE, .. } => {
            plan.fill(0);
            Answer { number: DONE, rows: 0 }
        }
        refused => refused,
    }
}

fn ever_refusing(image: &[u8], plan: &mut [u8], scratch: &mut [u8]) -> Answer {
    match repair(image, plan, scratch) {
        Answer { number: DONE, .. } => Answer { number: NOT_REPAIRABLE, rows: 0 },
        refused => refused,
    }
}

fn taking_short_buffers(image: &[u8], plan: &mut [u8], scratch: &mut [u8]) -> Answer {
    let (mut long_plan, mut long_scratch) = ([0; PLAN_LEN], vec![0; image.len()]);
    let answer = repair(image, &mut long_plan, &mut long_scratch);
    plan.copy_from_slice(&long_plan[..plan.len()]);
    scratch.copy_from_slice(&long_scratch[..scratch.len()]);
    answer
}

/// One directory less than the image says, whether or not its count was written already.
fn decrementing(image: &[u8], plan: &mut [u8], scratch: &mut [u8]) -> Answer {
    let (answer, finishes) = right(image, plan, scratch);
    if finishes {
        let view = Image::read(image).expect("the layout is right");
        put_u16(plan, OLD_PARENT_LINKS, view.inode(old_parent(image)).map_or(0, Inode::links).saturating_sub(1));
    }
    answer
}

/// The old entry is counted as long as it stands.
fn counting_the_old_entry(image: &[u8], plan: &mut [u8], scratch: &mut [u8]) -> Answer {
    let (answer, finishes) = right(image, plan, scratch);
    if finishes {
        let view = Image::read(image).expect("the layout is right");
        let parent = old_parent(image);
        let below = view.entries().filter(|entry| entry.name_len() != 0 && entry.parent() == parent);
        let directories = below.filter(|entry| view.is_directory(entry.target())).count();
        put_u16(plan, OLD_PARENT_LINKS, 2 + directories as u16);
    }
    answer
}

/// Goes on even where the new name has not landed, and does not write it.
fn always_finishing(image: &[u8], plan: &mut [u8], scratch: &mut [u8]) -> Answer {
    let (answer, finishes) = right(image, plan, scratch);
    if answer.rows == 0 || finishes {
        return answer;
    }
    let layout = Layout::read(image).expect("the layout is right");
    let (new_slot, moved) = (u16_at(image, journal_at(image) + 4), u16_at(image, journal_at(image) + 6));
    let mut later = image.to_vec();
    put_u16(&mut later, layout.position(ENTRIES, new_slot.into()) + 2, moved);
    repair(&later, plan, &mut vec![0; image.len()])
}

/// Takes the freed text from the replaced inode, which may be cleared already, and not from the journal record.
fn asking_the_freed_inode(image: &[u8], plan: &mut [u8], scratch: &mut [u8]) -> Answer {
    let (answer, finishes) = right(image, plan, scratch);
    if finishes {
        let view = Image::read(image).expect("the layout is right");
        let text = view.inode(u16_at(image, journal_at(image) + 8)).map_or(0, Inode::field);
        let row = usize::from(answer.rows) - 2;
        let offset = Layout::read(image).expect("the layout is right").position(TEXTS, text.into());
        put_u16(plan, row * ROW_LEN + 4, offset as u16);
    }
    answer
}

/// Clears the journal record along with all the rest.
fn clearing_the_journal_early(image: &[u8], plan: &mut [u8], scratch: &mut [u8]) -> Answer {
    let (answer, finishes) = right(image, plan, scratch);
    if finishes {
        plan[(usize::from(answer.rows) - 1) * ROW_LEN] = 3;
    }
    answer
}

/// Where there is nothing to do, writes a journal record that fits and clears it again: only what must stay is broken.
fn restless(image: &[u8], plan: &mut [u8], scratch: &mut [u8]) -> Answer {
    let answer = repair(image, plan, scratch);
    if answer != (Answer { number: DONE, rows: 0 }) {
        return answer;
    }
    for (number, group) in [(0, 3), (1, 4)] {
        let body = body_position(number);
        let row = Row { group, second: 0, len: 32, offset: journal_at(image) as u16, body: body as u16 };
        plan[number * ROW_LEN..(number + 1) * ROW_LEN].copy_from_slice(&row.encode());
    }
    plan[72..86].copy_from_slice(&[1, 0, 0, 0, 1, 0, 3, 0, 255, 255, 0, 0, 255, 255]);
    Answer { number: DONE, rows: 2 }
}

#[test]
fn wrong_repairs_are_reported() {
    let text_freed = planned(&crash_tree(), "/p/f", "/q/y");
    let cases: [(&str, PlannedRename, Repair, Breach); 9] = [
        ("idle", onto_a_file(), idle, Breach::NotTakenBack),
        ("restless", onto_a_file(), restless, Breach::NotTakenBack),
        ("ever refusing", onto_a_file(), ever_refusing, Breach::RepairRefused(NOT_REPAIRABLE)),
        ("short buffers", onto_a_file(), taking_short_buffers, Breach::ShortBuffer),
        ("decrementing", of_a_directory(), decrementing, Breach::RepairUnfinished),
        ("counting the old entry", of_a_directory(), counting_the_old_entry, Breach::RepairUnfinished),
        ("always finishing", onto_a_file(), always_finishing, Breach::NoName),
        ("freed text", text_freed, asking_the_freed_inode, Breach::RepairRefused(NOT_REPAIRABLE)),
        ("journal early", onto_a_file(), clearing_the_journal_early, Breach::RepairRefused(INCONSISTENT)),
    ];
    for (name, planned, repair, breach) in cases {
        assert_eq!(explore(&planned, repair).err(), Some(breach), "{name}");
    }
}

fn regrouped(mut planned: PlannedRename, row: usize, group: u8) -> PlannedRename {
    planned.plan[row * ROW_LEN] = group;
    planned
}

/// Every row may land at any time.
fn ungrouped(planned: PlannedRename) -> PlannedRename {
    (0..planned.rows.into()).fold(planned, |planned, row| regrouped(planned, row, 1))
}

/// One byte of a row's body is another.
fn spoiled(mut planned: PlannedRename, row: usize, at: usize) -> PlannedRename {
    planned.plan[body_position(row) + at] ^= 1;
    planned
}

#[test]
fn wrong_plans_are_reported() {
    let last = |planned: &PlannedRename| usize::from(planned.rows) - 1;
    let cases = [
        ("old entry in the new one's group", regrouped(onto_a_file(), 2, 2), Breach::NoName),
        ("rows in no order", ungrouped(onto_a_file()), Breach::NoName),
        (
            "new entry ahead of the journal",
            regrouped(regrouped(onto_a_file(), 0, 2), 1, 1),
            Breach::RepairRefused(INCONSISTENT),
        ),
        (
            "journal cleared with the rest",
            regrouped(onto_a_file(), last(&onto_a_file()), 3),
            Breach::RepairRefused(INCONSISTENT),
        ),
        ("another time", spoiled(onto_a_file(), 3, 24), Breach::RenameUnfinished),
        ("another time in the journal", spoiled(onto_a_file(), 0, 16), Breach::Scratch),
        ("another mark", spoiled(onto_a_file(), 0, 0), Breach::RepairRefused(NOT_REPAIRABLE)),
        ("another name", spoiled(onto_a_file(), 1, 8), Breach::SlotLost),
        ("no row of its group", regrouped(onto_a_file(), 3, 0), Breach::RowRefused(NOT_LANDABLE)),
    ];
    for (name, planned, breach) in cases {
        assert_eq!(explore(&planned, repair).err(), Some(breach), "{name}");
    }
}

#[test]
fn the_deciding_row_is_the_only_one_of_its_group() {
    for planned in [onto_a_file(), of_a_directory()] {
        let groups: Vec<u8> = (0..planned.rows.into()).map(|row| Row::read(&planned.plan, row).group).collect();
        assert_eq!(groups.iter().filter(|&&group| group == 2).count(), 1);
        assert!(groups.is_sorted());
    }
}
