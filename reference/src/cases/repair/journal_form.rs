//! Journal records out of their form: another mark, or a byte that should be zero.

use super::{journal_at, kinds, refused, repaired, RepairCases};
use crate::explore::PlannedRename;

const CLASS: &str = "form of the journal record";

const MARKS: [u8; 6] = [0, 2, 3, 128, 129, 255];

/// Where the record asks for zeros, but for the byte behind the mark.
const ZEROS: [usize; 10] = [14, 15, 24, 25, 26, 27, 28, 29, 30, 31];

pub fn with_byte(image: &[u8], at: usize, value: u8) -> Vec<u8> {
    let mut image = image.to_vec();
    let journal = journal_at(&image);
    image[journal + at] = value;
    image
}

/// The image with a record that is not pending.
pub fn unmarked(image: &[u8]) -> Vec<u8> {
    with_byte(image, 0, 0)
}

fn of_image(image: &[u8]) -> RepairCases {
    let marks = MARKS.iter().map(|&mark| (0, mark));
    let zeros = ZEROS.iter().flat_map(|&at| [(at, 1), (at, 128)]);
    let changes = marks.chain(zeros).chain([(1, 1), (1, 2), (1, 255)]);
    changes.map(|(at, value)| refused(CLASS, with_byte(image, at, value))).collect()
}

/// The kind of an exchange. A rename that frees no text writes a record that fits as an exchange's too.
const EXCHANGE: u8 = 7;

/// Every value of the byte behind the mark. Taken for an exchange, the rename has both entries, both inodes and both
/// parents to write.
fn second_bytes(planned: &PlannedRename) -> RepairCases {
    let image = planned.after([0, 1]);
    let answered = |value: u8| match value {
        EXCHANGE => repaired(CLASS, with_byte(&image, 1, value), 7),
        _ => refused(CLASS, with_byte(&image, 1, value)),
    };
    (1..=255).map(answered).collect()
}

/// One byte alone in a record that is clear otherwise: without two different slots no mark is enough.
fn single_bytes(planned: &PlannedRename) -> RepairCases {
    let bytes = (0..32).flat_map(|at| [1, 255].map(|value| (at, value)));
    bytes.map(|(at, value)| refused(CLASS, with_byte(&planned.before, at, value))).collect()
}

/// On an image whose rename would be taken back, and on one whose rename would be finished.
pub fn cases() -> RepairCases {
    let kinds = kinds();
    let images = kinds.iter().flat_map(|planned| [planned.after([0]), planned.after([0, 1])]);
    let of_images = images.flat_map(|image| of_image(&image));
    single_bytes(&kinds[0]).into_iter().chain(of_images).chain(second_bytes(&kinds[0])).collect()
}
