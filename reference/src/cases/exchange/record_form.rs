//! Journal records of an exchange out of their form: another mark, another kind, a byte that should be zero.

use super::on_the_way::kinds;
use crate::cases::repair::journal_form::with_byte;
use crate::cases::repair::{open, refused, repaired, RepairCase, RepairCases};

const CLASS: &str = "form of the record";

const KIND: u8 = 7;

const MARKS: [u8; 7] = [0, 2, 3, 7, 128, 129, 255];
const KINDS: [u8; 13] = [1, 2, 3, 4, 5, 6, 8, 9, 15, 23, 71, 135, 255];
const ZEROS: [usize; 10] = [14, 15, 24, 25, 26, 27, 28, 29, 30, 31];

/// As a rename's, the record is taken back where the new slot does not lead to moved, if that leaves every inode a name.
fn as_a_rename(image: &[u8]) -> RepairCase {
    open(CLASS, with_byte(image, 1, 0))
}

fn of_image(image: &[u8]) -> RepairCases {
    let marks = MARKS.iter().map(|&mark| (0, mark));
    let kinds = KINDS.iter().map(|&kind| (1, kind));
    let zeros = ZEROS.iter().flat_map(|&at| [(at, 1), (at, 128)]);
    marks.chain(kinds).chain(zeros).map(|(at, value)| refused(CLASS, with_byte(image, at, value))).collect()
}

pub fn cases() -> RepairCases {
    let kinds = kinds();
    let ways = [vec![0], vec![0, 1], vec![0, 2], vec![0, 1, 2]];
    let images = kinds.iter().zip(ways.clone()).map(|(planned, rows)| planned.after(rows));
    let every_kind = (1..=255).map(|kind| {
        let image = with_byte(&kinds[1].after([0, 1, 2, 4]), 1, kind);
        if kind == KIND {
            repaired(CLASS, image, kinds[1].rows - 1)
        } else {
            refused(CLASS, image)
        }
    });
    let as_renames = kinds.iter().flat_map(|planned| ways.clone().map(|rows| as_a_rename(&planned.after(rows))));
    images.flat_map(|image| of_image(&image)).chain(as_renames).chain(every_kind).collect()
}
