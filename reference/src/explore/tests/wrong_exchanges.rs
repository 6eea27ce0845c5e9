//! Repairs and plans of exchanges that are wrong: the explorer has to report each of them.

use super::exchanges::request;
use super::NOW;
use crate::cases::trees::for_crashes::crash_tree;
use crate::explore::{explore, Breach, PlannedRename, Repair};
use crate::model::image::Image;
use crate::model::layout::{Layout, ENTRIES, INODES, JOURNAL};
use crate::model::numbers::{DONE, INCONSISTENT, NOT_REPAIRABLE};
use crate::model::plan::{body_position, Row, PLAN_LEN, ROW_LEN};
use crate::model::repair::{repair, Answer};

fn planned(old: &str, new: &str) -> PlannedRename {
    PlannedRename::new(&crash_tree().encode(), &request(old, new), NOW).expect("the exchange has rows")
}

/// Two files that have one name each, in two directories.
fn of_files() -> PlannedRename {
    planned("/p/f", "/q/x")
}

/// Two directories, in two directories.
fn of_directories() -> PlannedRename {
    planned("/p/d", "/q/e")
}

fn of_a_directory_and_a_file() -> PlannedRename {
    planned("/p/d", "/q/x")
}

fn number_at(image: &[u8], at: usize) -> u16 {
    u16::from_le_bytes([image[at], image[at + 1]])
}

fn put_u16(bytes: &mut [u8], at: usize, value: u16) {
    bytes[at..at + 2].copy_from_slice(&value.to_le_bytes());
}

/// The numbers of the journal record: both slots, moved, replaced, from.
fn numbers(image: &[u8]) -> [u16; 5] {
    let journal = Layout::read(image).expect("the layout is right").offsets[JOURNAL];
    std::array::from_fn(|i| number_at(image, journal + 2 + 2 * i))
}

fn target(image: &[u8], slot: u16) -> u16 {
    let layout = Layout::read(image).expect("the layout is right");
    number_at(image, layout.position(ENTRIES, slot.into()) + 2)
}

/// The right answer, and whether it is to carry the exchange to its end.
fn right(image: &[u8], plan: &mut [u8], scratch: &mut [u8]) -> (Answer, bool) {
    let answer = repair(image, plan, scratch);
    (answer, answer.number == DONE && answer.rows > 0)
}

/// Gives each slot the target that the other one has as yet: done once more, that undoes itself.
fn swapping_targets(image: &[u8], plan: &mut [u8], scratch: &mut [u8]) -> Answer {
    let (answer, finishes) = right(image, plan, scratch);
    if finishes {
        let [old, new, ..] = numbers(image);
        put_u16(plan, body_position(0) + 2, target(image, new));
        put_u16(plan, body_position(1) + 2, target(image, old));
    }
    answer
}

/// Gives each directory the parent that the other one has as yet.
fn swapping_fields(image: &[u8], plan: &mut [u8], scratch: &mut [u8]) -> Answer {
    let (answer, finishes) = right(image, plan, scratch);
    if finishes {
        let layout = Layout::read(image).expect("the layout is right");
        let [_, _, moved, replaced, _] = numbers(image);
        let field = |inode: u16| number_at(image, layout.position(INODES, inode.into()) + 14);
        put_u16(plan, body_position(2) + 14, field(replaced));
        put_u16(plan, body_position(5) + 14, field(moved));
    }
    answer
}

/// Refuses what has only one of the two entries.
fn wanting_both_or_none(image: &[u8], plan: &mut [u8], scratch: &mut [u8]) -> Answer {
    let (answer, finishes) = right(image, plan, scratch);
    let [old, new, ..] = if finishes { numbers(image) } else { [0; 5] };
    match finishes && target(image, old) == target(image, new) {
        true => Answer { number: NOT_REPAIRABLE, rows: 0 },
        false => answer,
    }
}

/// Takes the exchange back as long as no entry has landed, as if it were a rename.
fn taking_back(image: &[u8], plan: &mut [u8], scratch: &mut [u8]) -> Answer {
    let (answer, finishes) = right(image, plan, scratch);
    let untouched = finishes && {
        let [old, new, moved, replaced, _] = numbers(image);
        [target(image, old), target(image, new)] == [moved, replaced]
    };
    if !untouched {
        return answer;
    }
    let last = usize::from(answer.rows) - 1;
    let row = Row { body: body_position(0) as u16, ..Row::read(plan, last) };
    plan[..PLAN_LEN].fill(0);
    plan[..ROW_LEN].copy_from_slice(&row.encode());
    Answer { rows: 1, ..answer }
}

/// Leaves the entries to the exchange's own rows.
fn without_entries(image: &[u8], plan: &mut [u8], scratch: &mut [u8]) -> Answer {
    let (answer, finishes) = right(image, plan, scratch);
    if finishes {
        let [old, new, ..] = numbers(image);
        put_u16(plan, body_position(0) + 2, target(image, old));
        put_u16(plan, body_position(1) + 2, target(image, new));
    }
    answer
}

/// Counts from's directories over the entries as they stand, ahead of its own rows.
fn counting_ahead(image: &[u8], plan: &mut [u8], scratch: &mut [u8]) -> Answer {
    let (answer, finishes) = right(image, plan, scratch);
    if finishes {
        let view = Image::read(image).expect("the layout is right");
        let [.., from] = numbers(image);
        let below = view.entries().filter(|entry| entry.name_len() != 0 && entry.parent() == from);
        let directories = below.filter(|entry| view.is_directory(entry.target())).count();
        put_u16(plan, body_position(3) + 12, 2 + directories as u16);
    }
    answer
}

/// Clears the journal record along with the inodes.
fn clearing_the_record_early(image: &[u8], plan: &mut [u8], scratch: &mut [u8]) -> Answer {
    let (answer, finishes) = right(image, plan, scratch);
    if finishes {
        plan[(usize::from(answer.rows) - 1) * ROW_LEN] = 3;
    }
    answer
}

#[test]
fn wrong_repairs_of_exchanges_are_reported() {
    let cases: [(&str, PlannedRename, Repair, Breach); 7] = [
        ("swapping targets", of_files(), swapping_targets, Breach::RepairUnfinished),
        ("swapping fields", of_directories(), swapping_fields, Breach::RepairUnfinished),
        ("wanting both or none", of_files(), wanting_both_or_none, Breach::RepairRefused(NOT_REPAIRABLE)),
        ("taking back", of_files(), taking_back, Breach::RepairUnfinished),
        ("without entries", of_files(), without_entries, Breach::RepairUnfinished),
        ("counting ahead", of_a_directory_and_a_file(), counting_ahead, Breach::RepairUnfinished),
        ("record early", of_directories(), clearing_the_record_early, Breach::RepairRefused(INCONSISTENT)),
    ];
    for (name, planned, repair, breach) in cases {
        assert_eq!(explore(&planned, repair).err(), Some(breach), "{name}");
    }
}

fn regrouped(mut planned: PlannedRename, row: usize, group: u8) -> PlannedRename {
    planned.plan[row * ROW_LEN] = group;
    planned
}

fn spoiled(mut planned: PlannedRename, row: usize, at: usize) -> PlannedRename {
    planned.plan[body_position(row) + at] ^= 1;
    planned
}

#[test]
fn wrong_plans_of_exchanges_are_reported() {
    let last = usize::from(of_files().rows) - 1;
    let cases = [
        ("old entry with the record", regrouped(of_files(), 1, 1), Breach::RepairRefused(INCONSISTENT)),
        ("new entry with the record", regrouped(of_files(), 2, 1), Breach::RepairRefused(INCONSISTENT)),
        ("an inode with the record", regrouped(of_files(), 3, 1), Breach::Scratch),
        ("record cleared with the rest", regrouped(of_directories(), last, 3), Breach::RepairRefused(INCONSISTENT)),
        ("another kind", spoiled(of_files(), 0, 1), Breach::RepairRefused(NOT_REPAIRABLE)),
        ("a text", spoiled(of_files(), 0, 12), Breach::RepairRefused(NOT_REPAIRABLE)),
        ("another time in the record", spoiled(of_files(), 0, 16), Breach::Scratch),
        ("another time", spoiled(of_files(), 3, 24), Breach::RenameUnfinished),
        ("another name", spoiled(of_files(), 1, 8), Breach::SlotLost),
        ("another parent", spoiled(of_directories(), 2, 0), Breach::SlotLost),
        ("another field", spoiled(of_directories(), 6, 14), Breach::RenameUnfinished),
    ];
    for (name, planned, breach) in cases {
        assert_eq!(explore(&planned, repair).err(), Some(breach), "{name}");
    }
}

/// Both entries may even land with the inodes: the record alone decides.
#[test]
fn the_record_is_the_only_row_of_its_group() {
    for planned in [of_files(), of_directories()] {
        let groups: Vec<u8> = (0..planned.rows.into()).map(|row| Row::read(&planned.plan, row).group).collect();
        assert_eq!(groups, [1, 2, 2, 3, 3, 3, 3, 4]);
        assert_eq!(planned.deciding, 0);
        let later = regrouped(regrouped(planned, 1, 3), 2, 3);
        assert!(explore(&later, repair).is_ok());
    }
}
