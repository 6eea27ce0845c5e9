//! Damaged images with a journal record: repair looks at the layout first, and at the records only by their outcome.

use super::clear_journal::some_of;
use super::{journal_at, kinds, layout, open, refused, told, Number, RepairCase, RepairCases};
use crate::cases::damage::subject::{put_u16, Subject};
use crate::cases::damage::{random_changes, LAYOUT_CLAUSES, RECORD_CLAUSES};
use crate::cases::random::Random;
use crate::cases::trees::for_crashes::crash_tree;
use crate::explore::PlannedRename;
use crate::model::land::land;
use crate::model::layout::{ENTRIES, HANDLES, INODES, TEXTS};
use crate::model::numbers::INCONSISTENT;

/// The clauses take turns on the renames, so that each has a few images.
const OF_A_CLAUSE: usize = 4;

/// The table of contents or the length broken under a record that is good otherwise.
pub fn of_the_layout(random: &mut Random) -> RepairCases {
    let mut cases = vec![];
    for (planned, landed) in kinds().iter().zip([vec![0], vec![0, 1]].iter().cycle()) {
        let bytes = planned.after(landed.iter().copied());
        let subject = Subject { tree: crash_tree(), layout: layout(&bytes), bytes };
        let images = LAYOUT_CLAUSES.iter().flat_map(|clause| some_of(clause, &subject, 2, random));
        cases.extend(images.map(|image| told("layout under a journal record", image, INCONSISTENT, 0)));
    }
    cases
}

fn slot_of_the_new_name(planned: &PlannedRename, image: &[u8]) -> Vec<u8> {
    let slot = layout(image).position(ENTRIES, Number::NewSlot.of(&planned.after([0])).into());
    image[slot..slot + 32].to_vec()
}

/// Where the rename is taken back, every damage stays; unless it is to the very slot that tells so.
fn taken_back(planned: &PlannedRename, mut image: Vec<u8>) -> RepairCase {
    let class = "records, taken back";
    let same_slot = slot_of_the_new_name(planned, &image) == slot_of_the_new_name(planned, &planned.before);
    land(&mut image, &planned.plan, 0);
    match same_slot {
        true => refused(class, image),
        false => open(class, image),
    }
}

/// Where it is finished, rows may write over the damage.
fn finished(planned: &PlannedRename, mut image: Vec<u8>) -> RepairCase {
    land(&mut image, &planned.plan, 0);
    land(&mut image, &planned.plan, 1);
    open("records, finished", image)
}

/// The check's own damages of the records, each under some of the renames.
pub fn of_the_records(random: &mut Random) -> RepairCases {
    let subject = Subject::new(crash_tree());
    let kinds = kinds();
    let mut cases = vec![];
    for (turn, clause) in RECORD_CLAUSES.iter().enumerate() {
        let planned = &kinds[turn % kinds.len()];
        let images = some_of(clause, &subject, OF_A_CLAUSE, random);
        cases.extend(images.iter().map(|image| taken_back(planned, image.clone())));
        cases.extend(images.into_iter().map(|image| finished(planned, image)));
    }
    cases
}

/// Parts of records that no rename of the kinds writes, set to what is out of range: an inode and an entry of q/g, the
/// text of p/y, the second handle.
fn out_of_range(image: &[u8]) -> Vec<Vec<u8>> {
    let layout = layout(image);
    let inode = layout.position(INODES, 13);
    let entry = layout.position(ENTRIES, 15);
    let (text, handle) = (layout.position(TEXTS, 1), layout.position(HANDLES, 1));
    let bytes = [(inode, 4), (inode, 255), (inode + 3, 255), (entry + 4, 25), (entry + 4, 255), (entry + 8, 0)];
    let others = [(text, 64), (text, 255), (handle, 3), (handle, 255), (handle + 1, 1), (handle + 7, 1)];
    let numbers = [17, 2048, 2048 + 13, 32_768, 65_535];
    let number_places = [entry, entry + 2, inode + 12, inode + 14, handle + 2];
    let mut images = vec![];
    for (at, value) in bytes.into_iter().chain(others) {
        let mut image = image.to_vec();
        image[at] = value;
        images.push(image);
    }
    for (at, value) in number_places.into_iter().flat_map(|at| numbers.map(|value| (at, value))) {
        let mut image = image.to_vec();
        put_u16(&mut image, at, value);
        images.push(image);
    }
    images
}

/// Numbers and lengths that a careless count would follow out of the image.
pub fn of_other_records() -> RepairCases {
    let images = kinds().into_iter().flat_map(|planned| [planned.after([0]), planned.after([0, 1])]);
    images.flat_map(|image| out_of_range(&image)).map(|image| refused("records out of range", image)).collect()
}

/// Any bytes changed on the way of a rename, those of the journal record among them.
pub fn by_chance(count: usize, random: &mut Random) -> RepairCases {
    let mut cases = vec![];
    for planned in kinds() {
        let rest = 2..usize::from(planned.rows);
        let ways = [vec![0], vec![0, 1], vec![0, 1, 2, 4], [0, 1].into_iter().chain(rest).collect()];
        for way in ways {
            cases.extend(changed_by_chance(planned.after(way), count, random));
        }
    }
    cases
}

/// So many images that differ from this one by chance.
pub fn changed_by_chance(bytes: Vec<u8>, count: usize, random: &mut Random) -> RepairCases {
    let subject = Subject { tree: crash_tree(), layout: layout(&bytes), bytes };
    (0..count).map(|turn| open("random bytes", changed(&subject, turn, random))).collect()
}

fn changed(subject: &Subject, turn: usize, random: &mut Random) -> Vec<u8> {
    let mut image = if turn.is_multiple_of(3) { subject.bytes.clone() } else { random_changes::flip(subject, random) };
    if turn % 3 != 1 {
        let at = journal_at(&subject.bytes) + *random.pick(&[2, 4, 6, 8, 10, 12]) + random.below(16) / 15;
        image[at] = random.below(26) as u8;
    }
    image
}
