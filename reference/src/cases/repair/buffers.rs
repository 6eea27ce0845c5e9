//! Plan and scratch buffers of every length under every kind of answer: too short a buffer comes before all else.

use super::{journal_form, kinds, refused, repaired, told, Number, RepairCase, RepairCases, NONE};
use crate::cases::trees::for_crashes::crash_tree;
use crate::model::layout::CONTENTS_LEN;
use crate::model::numbers::{BUFFER_TOO_SHORT, INCONSISTENT};
use crate::model::plan::PLAN_LEN;
use crate::model::repair::Answer;
use crate::vectors::{Buffer, Scratch, LONGEST_SCRATCH};

const CLASS: &str = "buffers";

const PLANS: [u16; 6] = [0, 1, 647, 648, 649, 1024];

const FILLS: [u8; 5] = [0, 255, 1, 85, 170];

fn with_byte(mut image: Vec<u8>, at: usize) -> Vec<u8> {
    image[at] ^= 1;
    image
}

/// Nothing to do, taken back, finished with few rows and with many; then an image for each reason to refuse.
fn answers() -> RepairCases {
    let [file, symlink, directory, _] = kinds();
    let tree = crash_tree().encode();
    let links = CONTENTS_LEN + 12;
    let no_text = Number::Text.set(&symlink.after([0, 1]), NONE);
    vec![
        repaired(CLASS, tree.clone(), 0),
        repaired(CLASS, file.after([0]), 1),
        repaired(CLASS, directory.after([0, 1]), directory.rows - 2),
        repaired(CLASS, symlink.after([0, 1, 3, 6]), symlink.rows - 2),
        told(CLASS, vec![], INCONSISTENT, 0),
        told(CLASS, with_byte(tree.clone(), 0), INCONSISTENT, 0),
        told(CLASS, with_byte(file.after([0, 1]), 0), INCONSISTENT, 0),
        told(CLASS, with_byte(tree.clone(), links), INCONSISTENT, 0),
        refused(CLASS, journal_form::unmarked(&file.after([0, 1]))),
        refused(CLASS, with_byte(file.after([0]), links)),
        refused(CLASS, no_text),
    ]
}

/// Of the image's length, and near it.
fn scratch_lengths(image: &[u8]) -> Vec<usize> {
    let len = image.len();
    let mut lengths = vec![len, len + 1, len + 300];
    lengths.extend([len.checked_sub(1), len.checked_sub(32), (len > 1).then_some(0)].into_iter().flatten());
    lengths
}

fn with_buffers(case: &RepairCase, plan: Buffer, scratch: Scratch) -> RepairCase {
    let short = usize::from(plan.len) < PLAN_LEN || (scratch.len as usize) < case.image.len();
    let told = if short { Some(Answer { number: BUFFER_TOO_SHORT, rows: 0 }) } else { case.told };
    RepairCase { buffers: Some((plan, scratch)), told, ..case.clone() }
}

pub fn cases() -> RepairCases {
    let mut cases = vec![];
    for (i, case) in answers().iter().enumerate() {
        let lengths = scratch_lengths(&case.image);
        for (j, len) in PLANS.into_iter().enumerate() {
            let fill = FILLS[(i + j) % FILLS.len()];
            let scratch = lengths.iter().map(|&len| Scratch { len: len as u32, fill: !fill });
            cases.extend(scratch.map(|scratch| with_buffers(case, Buffer { len, fill }, scratch)));
        }
        let longest = Scratch { len: LONGEST_SCRATCH as u32, fill: 7 };
        cases.push(with_buffers(case, Buffer { len: 648, fill: 9 }, longest));
    }
    cases
}
