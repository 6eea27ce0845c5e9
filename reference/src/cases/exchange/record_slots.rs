//! A journal record of an exchange whose two entries are not as it leaves them: free, in other directories, or leading
//! elsewhere.

use super::on_the_way::kinds;
use crate::cases::damage::subject::put_u16;
use crate::cases::repair::Number::{Moved, NewSlot, OldSlot, Replaced};
use crate::cases::repair::{layout, open, refused, repaired, Number, RepairCases, NONE};
use crate::explore::PlannedRename;
use crate::model::image::Image;
use crate::model::layout::{ENTRIES, INODES};

const TARGETS: &str = "targets of both slots";
const FREE: &str = "free slots";
const PARENTS: &str = "parents of both slots";

const PARENT: usize = 0;
const TARGET: usize = 2;
const LENGTH: usize = 4;

fn at(image: &[u8], slot: Number) -> usize {
    layout(image).position(ENTRIES, slot.of(image).into())
}

fn with_number(image: &[u8], slot: Number, field: usize, to: u16) -> Vec<u8> {
    let mut changed = image.to_vec();
    put_u16(&mut changed, at(image, slot) + field, to.into());
    changed
}

/// Both slots lead to moved and replaced in any of four ways, and nowhere else.
fn targets(planned: &PlannedRename) -> RepairCases {
    let image = planned.after([0]);
    let right = [Moved, Replaced].map(|number| number.of(&image));
    let count = layout(&image).counts[INODES] as u16;
    let any = [right[0], right[1], 0, 13, count, right[0] + 2048, NONE];
    let pairs = any.iter().flat_map(|old| any.iter().map(move |new| (*old, *new)));
    let of = |(old, new): (u16, u16)| {
        let image = with_number(&with_number(&image, OldSlot, TARGET, old), NewSlot, TARGET, new);
        match right.contains(&old) && right.contains(&new) {
            true => repaired(TARGETS, image, planned.rows - 1),
            false => refused(TARGETS, image),
        }
    };
    pairs.map(of).collect()
}

/// Without a name, or all zero; and with a length that no name has, which the outcome keeps.
fn free(planned: &PlannedRename) -> RepairCases {
    let mut cases = vec![];
    for rows in [vec![0], vec![0, 1], vec![0, 1, 2]] {
        let image = planned.after(rows);
        for slot in [OldSlot, NewSlot] {
            let mut cleared = image.clone();
            cleared[at(&image, slot)..][..32].fill(0);
            cases.push(refused(FREE, cleared));
            for length in [0, 25, 255] {
                let mut changed = image.clone();
                changed[at(&image, slot) + LENGTH] = length;
                cases.push(refused(FREE, changed));
            }
        }
    }
    cases
}

/// The old slot is in from. The new slot may be in any directory but moved and replaced; whether the outcome is consistent
/// then is another question.
fn parents(planned: &PlannedRename) -> RepairCases {
    let image = planned.after([0, 1]);
    let view = Image::read(&image).expect("the layout is right");
    let count = layout(&image).counts[INODES] as u16;
    let parent = |slot: Number| u16::from_le_bytes([image[at(&image, slot)], image[at(&image, slot) + 1]]);
    let mut cases = vec![];
    for to in (0..count).chain([count, 2048, 2049, 0x8001, NONE - 1, NONE]) {
        if to != parent(OldSlot) {
            cases.push(refused(PARENTS, with_number(&image, OldSlot, PARENT, to)));
        }
        let changed = with_number(&image, NewSlot, PARENT, to);
        let is_barred = !view.is_directory(to) || [Moved, Replaced].map(|number| number.of(&image)).contains(&to);
        cases.push(if is_barred { refused(PARENTS, changed) } else { open(PARENTS, changed) });
    }
    cases
}

pub fn cases() -> RepairCases {
    kinds().iter().flat_map(|planned| [targets(planned), free(planned), parents(planned)].concat()).collect()
}
