//! Link counts at their limit: sixty-four names, sixty-two subdirectories, and one more of each on the way.

use super::{journal_at, refused, repaired, Number, RepairCases, NONE, NOW};
use crate::cases::damage::subject::put_u16;
use crate::cases::rename::{limits, RenameCases};
use crate::cases::trees::builder::Entry;
use crate::explore::PlannedRename;

const CLASS: &str = "link counts";

/// The slot of the tree of many names that stays free when a name is added.
const LAST_SLOT: u16 = 129;

/// Taken back, and finished with no other row or with the old entry cleared already.
fn of_renames(cases: RenameCases) -> RepairCases {
    let mut repairs = vec![];
    for planned in cases.iter().filter_map(|case| PlannedRename::new(&case.image, &case.request, NOW)) {
        repairs.push(repaired(CLASS, planned.after([0]), 1));
        repairs.push(repaired(CLASS, planned.after([0, 1]), planned.rows - 2));
        repairs.push(repaired(CLASS, planned.after([0, 1, 2]), planned.rows - 2));
    }
    repairs
}

/// The old slot is one that is free, so that all names stay: sixty-five of a file whose count says sixty-four.
fn one_name_too_many() -> RepairCases {
    let renames = limits::names().into_iter().filter_map(|case| PlannedRename::new(&case.image, &case.request, NOW));
    let images = renames.take(3).map(|planned| planned.after([0, 1]));
    images.map(|image| refused(CLASS, Number::OldSlot.set(&image, LAST_SLOT))).collect()
}

/// A directory beside top has a new name inside it, where as many are already as may be. No rename writes that.
fn one_subdirectory_too_many() -> RepairCases {
    let mut tree = limits::wide();
    tree.inodes[64] = tree.inodes[2].clone();
    tree.add(Entry::new(0, 64, b"side"));
    tree.recount();
    let [old_slot, new_slot] = [63, 64];
    tree.entries[new_slot] = Entry::new(1, 64, b"new");
    let mut image = tree.encode();
    let journal = journal_at(&image);
    image[journal] = 1;
    for (i, number) in [old_slot, new_slot, 64, usize::from(NONE), 0, usize::from(NONE)].into_iter().enumerate() {
        put_u16(&mut image, journal + 2 + 2 * i, number);
    }
    vec![refused(CLASS, image)]
}

pub fn names() -> RepairCases {
    of_renames(limits::names()).into_iter().chain(one_name_too_many()).collect()
}

pub fn subdirectories() -> RepairCases {
    of_renames(limits::subdirectories()).into_iter().chain(one_subdirectory_too_many()).collect()
}
