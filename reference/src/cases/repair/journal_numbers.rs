//! Journal records with other numbers: out of range, equal where they must differ, of the wrong type, or merely others.

use super::{kinds, layout, open, refused, repaired, Number, RepairCases, NONE};
use crate::cases::damage::subject::{put_u16, spread};
use crate::explore::PlannedRename;
use crate::model::image::{Image, DIRECTORY};
use crate::model::layout::{ENTRIES, INODES, TEXTS};

const RANGE: &str = "numbers out of range";
const EQUAL: &str = "numbers that do not go together";
const OTHERS: &str = "other numbers in range";

pub(in crate::cases) fn section(number: Number) -> usize {
    match number {
        Number::OldSlot | Number::NewSlot => ENTRIES,
        Number::Moved | Number::Replaced | Number::OldParent => INODES,
        Number::Text => TEXTS,
    }
}

/// Only a replaced inode and a freed text may be left out.
fn may_be_none(number: Number) -> bool {
    matches!(number, Number::Replaced | Number::Text)
}

/// Numbers that no record has; 2048 records of 32 bytes, and 1024 of 64, are 65536 bytes, where 16-bit products wrap.
fn beyond(image: &[u8], number: Number) -> Vec<u16> {
    let count = layout(image).counts[section(number)] as u16;
    let is = number.of(image) % count;
    let mut values = vec![count, count + 1, is + 256, is + 1024, is + 2048, is | 0x8000, NONE - 1];
    if !may_be_none(number) {
        values.push(NONE);
    }
    values
}

fn out_of_range(image: &[u8]) -> RepairCases {
    let values = Number::ALL.iter().flat_map(|&number| beyond(image, number).into_iter().map(move |to| (number, to)));
    values.map(|(number, to)| refused(RANGE, number.set(image, to))).collect()
}

/// Pairs of numbers that are made equal, each by changing either of them. The moved inode is never root.
fn made_equal(image: &[u8]) -> RepairCases {
    use Number::{Moved, NewSlot, OldParent, OldSlot, Replaced};
    let pairs = [(OldSlot, NewSlot), (Moved, OldParent), (Moved, Replaced), (Replaced, OldParent)];
    let either = pairs.into_iter().flat_map(|(one, other)| [(one, other), (other, one)]);
    let images = either.filter(|(_, from)| from.of(image) != NONE).map(|(to, from)| to.set(image, from.of(image)));
    images.chain([Moved.set(image, 0)]).map(|image| refused(EQUAL, image)).collect()
}

/// The old parent a file, a symlink, or free.
fn parents_of_other_types(image: &[u8]) -> RepairCases {
    let view = Image::read(image).expect("the layout is right");
    let others = (0..).zip(view.inodes()).filter(|(_, inode)| inode.kind() != DIRECTORY).map(|(number, _)| number);
    others.map(|number: u16| refused(EQUAL, Number::OldParent.set(image, number))).collect()
}

/// The new name has landed in a place where it may not be: no directory, the moved inode, the replaced one.
fn new_parents(planned: &PlannedRename) -> RepairCases {
    let image = planned.after([0, 1]);
    let view = Image::read(&image).expect("the layout is right");
    let slot = layout(&image).position(ENTRIES, Number::NewSlot.of(&image).into());
    let count = layout(&image).counts[INODES] as u16;
    let others = (0..count).filter(|&number| !view.is_directory(number));
    let beyond = [count, 2048, 32_768, NONE - 1, NONE];
    let moved_and_replaced = [Number::Moved, Number::Replaced].map(|number| number.of(&image));
    let parents = others.chain(beyond).chain(moved_and_replaced);
    let in_place = |parent: u16| {
        let mut image = image.clone();
        put_u16(&mut image, slot, parent.into());
        refused(EQUAL, image)
    };
    let parent = u16::from_le_bytes([image[slot], image[slot + 1]]);
    let named_as_replaced = refused(EQUAL, Number::Replaced.set(&image, parent));
    parents.map(in_place).chain([named_as_replaced]).collect()
}

/// What is freed must be named, inode and text, and nothing else may be.
fn replaced_and_text(planned: &PlannedRename) -> RepairCases {
    let (noted, named) = (planned.after([0]), planned.after([0, 1]));
    let mut cases = vec![];
    for number in [Number::Replaced, Number::Text] {
        let some = number.of(&named) != NONE;
        cases.extend(some.then(|| refused(EQUAL, number.set(&named, NONE))));
        cases.push(repaired(EQUAL, number.set(&noted, NONE), 1));
    }
    let view = Image::read(&named).expect("the layout is right");
    for (text, record) in (0..).zip(view.texts()).filter(|&(text, _)| text != Number::Text.of(&named)) {
        let image = Number::Text.set(&named, text);
        // A text row of its own is one more, where there was none; its record may be free already.
        let harmless = record.text_len() == 0 && Number::Text.of(&named) == NONE;
        cases.push(if harmless { repaired(EQUAL, image, planned.rows - 1) } else { refused(EQUAL, image) });
        cases.push(repaired(EQUAL, Number::Text.set(&noted, text), 1));
    }
    cases
}

/// The first and the last record and others between.
fn others(image: &[u8]) -> RepairCases {
    let some = |number: Number| spread((0..layout(image).counts[section(number)]).collect());
    let values = Number::ALL.iter().flat_map(|&number| some(number).into_iter().map(move |to| (number, to as u16)));
    let changed = values.filter(|(number, to)| number.of(image) != *to);
    changed.map(|(number, to)| open(OTHERS, number.set(image, to))).collect()
}

pub fn cases() -> RepairCases {
    let mut cases = vec![];
    for planned in kinds() {
        for image in [planned.after([0]), planned.after([0, 1])] {
            cases.extend(out_of_range(&image));
            cases.extend(made_equal(&image));
            cases.extend(parents_of_other_types(&image));
            cases.extend(others(&image));
        }
        cases.extend(new_parents(&planned));
        cases.extend(replaced_and_text(&planned));
    }
    cases
}
