//! Journal records of an exchange with other numbers: out of range, equal where they must differ, or merely others.

use super::on_the_way::kinds;
use crate::cases::damage::subject::spread;
use crate::cases::repair::journal_numbers::section;
use crate::cases::repair::Number::{Moved, NewSlot, OldParent, OldSlot, Replaced, Text};
use crate::cases::repair::{layout, open, refused, repaired, Number, RepairCases, NONE};
use crate::explore::PlannedRename;
use crate::model::image::{Image, DIRECTORY};

const RANGE: &str = "numbers out of range";
const EQUAL: &str = "numbers that do not go together";
const OTHERS: &str = "other numbers in range";

/// Numbers that no record has; 2048 records of 32 bytes are 65536 bytes, where 16-bit products wrap. All numbers but the
/// text's have to be those of a record, and the text's none.
fn out_of_range(image: &[u8]) -> RepairCases {
    let mut cases = vec![];
    for number in [OldSlot, NewSlot, Moved, Replaced, OldParent] {
        let count = layout(image).counts[section(number)] as u16;
        let is = number.of(image);
        let beyond = [count, count + 1, is + 256, is + 1024, is + 2048, is | 0x8000, NONE - 1, NONE];
        cases.extend(beyond.map(|to| refused(RANGE, number.set(image, to))));
    }
    let texts = [0, 1, 2, 3, 5, 6, 63, 255, 256, 0x7fff, 0x8000, 0xff00, NONE - 1];
    cases.extend(texts.map(|to| refused(RANGE, Text.set(image, to))));
    cases
}

/// Pairs that must differ, each made equal by changing either of them; and neither inode is root.
fn made_equal(image: &[u8]) -> RepairCases {
    let pairs = [(OldSlot, NewSlot), (Moved, OldParent), (Moved, Replaced), (Replaced, OldParent)];
    let either = pairs.into_iter().flat_map(|(one, other)| [(one, other), (other, one)]);
    let images = either.map(|(to, from)| to.set(image, from.of(image)));
    images.chain([Moved.set(image, 0), Replaced.set(image, 0)]).map(|image| refused(EQUAL, image)).collect()
}

/// From is no directory, or one that the old slot is not in.
fn other_parents(image: &[u8]) -> RepairCases {
    let count = layout(image).counts[section(OldParent)] as u16;
    let others = (0..count).filter(|&number| number != OldParent.of(image));
    others.map(|number| refused(EQUAL, OldParent.set(image, number))).collect()
}

fn exchanged(image: &[u8], one: Number, other: Number) -> Vec<u8> {
    other.set(&one.set(image, other.of(image)), one.of(image))
}

/// With moved and replaced in each other's place the record asks for the exchange the other way round; with both slots as
/// well for the same one again, where from is the other directory.
fn turned(planned: &PlannedRename, image: &[u8]) -> RepairCases {
    let rows = planned.rows - 1;
    let view = Image::read(image).expect("the layout is right");
    let into = view.entries().nth(NewSlot.of(image).into()).map_or(NONE, |entry| entry.parent());
    let inodes = exchanged(image, Moved, Replaced);
    let slots = exchanged(image, OldSlot, NewSlot);
    let within = into == OldParent.of(image);
    let of_slots = |image: Vec<u8>| if within { repaired(EQUAL, image, rows) } else { refused(EQUAL, image) };
    vec![
        repaired(EQUAL, inodes.clone(), rows),
        of_slots(slots.clone()),
        repaired(EQUAL, OldParent.set(&slots, into), rows),
        repaired(EQUAL, OldParent.set(&exchanged(&slots, Moved, Replaced), into), rows),
    ]
}

/// The first and the last record and others between: neither slot leads to another inode, nor another slot to these.
fn others(image: &[u8]) -> RepairCases {
    let some = |number: Number| spread((0..layout(image).counts[section(number)]).collect());
    let numbers = [OldSlot, NewSlot, Moved, Replaced];
    let values = numbers.iter().flat_map(|&number| some(number).into_iter().map(move |to| (number, to as u16)));
    let changed = values.filter(|(number, to)| number.of(image) != *to);
    changed.map(|(number, to)| open(OTHERS, number.set(image, to))).collect()
}

/// Every two inodes as moved and replaced, on an image where both slots lead to one of the right ones.
fn pairs_of_inodes(image: &[u8]) -> RepairCases {
    let view = Image::read(image).expect("the layout is right");
    let directories = (0..).zip(view.inodes()).filter(|(_, inode)| inode.kind() == DIRECTORY).map(|(number, _)| number);
    let some: Vec<u16> = directories.chain([Moved.of(image), Replaced.of(image)]).collect();
    let pairs = some.iter().flat_map(|one| some.iter().map(move |other| (*one, *other)));
    pairs.map(|(one, other)| open(OTHERS, Replaced.set(&Moved.set(image, one), other))).collect()
}

pub fn cases() -> RepairCases {
    let mut cases = vec![];
    let ways = [vec![0], vec![0, 1], vec![0, 2], vec![0, 1, 2]];
    for (planned, way) in kinds().into_iter().zip(&ways) {
        let image = planned.after(way.clone());
        cases.extend(out_of_range(&image));
        cases.extend(made_equal(&image));
        cases.extend(other_parents(&image));
        cases.extend(others(&image));
        cases.extend(ways.iter().flat_map(|way| turned(&planned, &planned.after(way.clone()))));
        cases.extend(pairs_of_inodes(&planned.after([0, 2])));
    }
    cases
}
