//! Damage to the table of contents and to the length of an image.

use super::subject::{each, put_u16, Subject};
use super::Images;
use crate::cases::trees::builder::{Entry, Handle, Inode, Tree};
use crate::model::layout::{CONTENTS_LEN, ROW_LEN, SECTIONS};
use crate::vectors::{LONGEST_BASE, LONGEST_CASE};

fn rows() -> Vec<usize> {
    (0..5).collect()
}

fn offset_at(row: usize) -> usize {
    row * ROW_LEN + 4
}

fn count_at(row: usize) -> usize {
    row * ROW_LEN + 6
}

pub fn name_letters(subject: &Subject) -> Images {
    let letters = (0..20).map(|i| i / 4 * ROW_LEN + i % 4).collect();
    each(letters, &[1, 32, 128], |at, bits| subject.poke(at, subject.bytes[at] ^ bits))
}

pub fn names_exchanged(subject: &Subject) -> Images {
    each(rows(), &[1, 2, 4], |row, step| {
        let (one, other) = (row * ROW_LEN, (row + step) % 5 * ROW_LEN);
        let mut image = subject.bytes.clone();
        image.copy_within(one..one + 4, other);
        image[one..one + 4].copy_from_slice(&subject.bytes[other..other + 4]);
        Some(image)
    })
}

pub fn other_names(subject: &Subject) -> Images {
    let names = [b"LIN2", b"link", b"Link", b"NODE", b"\0\0\0\0"];
    each(vec![ROW_LEN], &names, |at, name| {
        let mut image = subject.bytes.clone();
        image[at..at + 4].copy_from_slice(name);
        Some(image)
    })
}

pub fn offsets_changed(subject: &Subject) -> Images {
    let steps = [-256, -64, -40, -32, -8, -1, 1, 8, 32, 64, 256, 32_768];
    let moved = each(rows(), &steps, |row, step| {
        let offset = subject.layout.offsets[row] as i64 + step;
        subject.poke_u16(offset_at(row), offset as usize)
    });
    let set = each(rows(), &[0, 40, 65_535], |row, offset| subject.poke_u16(offset_at(row), offset));
    [moved, set].concat()
}

pub fn offsets_overlap(subject: &Subject) -> Images {
    let onto_another = each(rows(), &[1, 2, 3, 4], |row, step| {
        subject.poke_u16(offset_at(row), subject.layout.offsets[(row + step) % 5])
    });
    let mut all_first = subject.bytes.clone();
    rows().iter().for_each(|&row| put_u16(&mut all_first, offset_at(row), CONTENTS_LEN));
    [onto_another, vec![all_first]].concat()
}

/// Zero bytes put in ahead of a section, with the offsets moved so that every record is still found.
pub fn gaps(subject: &Subject) -> Images {
    each(rows(), &[1, 8, 32], |row, gap: usize| {
        let mut image = subject.bytes.clone();
        let at = subject.layout.offsets[row];
        image.splice(at..at, vec![0; gap]);
        for later in row..5 {
            put_u16(&mut image, offset_at(later), subject.layout.offsets[later] + gap);
        }
        (image.len() <= 4096).then_some(image)
    })
}

pub fn counts_changed(subject: &Subject) -> Images {
    let moved = each(rows(), &[-1, 1, 256, 32_768], |row, step: i64| {
        let count = subject.layout.counts[row] as i64 + step;
        subject.poke_u16(count_at(row), count as usize)
    });
    let set = each(rows(), &[0, 1, 2, 17, 65, 513, 1025, 65_535], |row, count| subject.poke_u16(count_at(row), count));
    [moved, set].concat()
}

fn grown(subject: &Subject, grow: impl Fn(&mut Tree)) -> Option<Vec<u8>> {
    subject.vary(|tree| {
        grow(tree);
        true
    })
}

/// Journal records more or fewer than one, with the length to match.
fn journal_count(subject: &Subject, count: usize) -> Option<Vec<u8>> {
    let mut image = subject.poke_u16(count_at(4), count)?;
    image.resize(subject.layout.offsets[4] + count * SECTIONS[4].record_len, 0);
    Some(image)
}

pub fn counts_out_of_range(subject: &Subject) -> Images {
    let images = [
        grown(subject, |tree| tree.inodes.clear()),
        grown(subject, |tree| tree.inodes.resize(513, Inode::default())),
        grown(subject, |tree| tree.entries.resize(1025, Entry::default())),
        grown(subject, |tree| tree.texts.resize(65, vec![])),
        grown(subject, |tree| tree.handles.resize(17, Handle::default())),
        journal_count(subject, 0),
        journal_count(subject, 2),
    ];
    // A larger image than the largest base could not be stored with few edits.
    images.into_iter().flatten().filter(|image| image.len() <= LONGEST_BASE).collect()
}

/// Counts too large by a multiple of 65536 bytes: 16-bit sums would find every section where it is.
pub fn wrapping_counts(subject: &Subject) -> Images {
    let len = subject.bytes.len();
    let single = each(rows(), &[(1, len), (1, len + 65_536), (2, len), (3, len)], |row, (times, len)| {
        let step = times * 65_536 / SECTIONS[row].record_len;
        let mut image = subject.poke_u16(count_at(row), subject.layout.counts[row] + step)?;
        image.resize(len, 0);
        Some(image)
    });
    let shared = each((0..4).collect(), &[len, len + 65_536], |row, len| {
        let mut image = subject.bytes.clone();
        for half in [row, row + 1] {
            let step = 32_768 / SECTIONS[half].record_len;
            put_u16(&mut image, count_at(half), subject.layout.counts[half] + step);
        }
        let between = subject.layout.offsets[row + 1] + 32_768;
        put_u16(&mut image, offset_at(row + 1), between);
        image.resize(len, 0);
        Some(image)
    });
    [single, shared].concat()
}

pub fn any_byte(subject: &Subject) -> Images {
    let values: [fn(u8) -> u8; 3] =
        [|old| if old == 255 { 0 } else { 255 }, |old| old ^ 128, |old| old.wrapping_add(1)];
    each((0..CONTENTS_LEN).collect(), &values, |at, value| subject.poke(at, value(subject.bytes[at])))
}

fn cut_or_extended(subject: &Subject, len: usize) -> Option<Vec<u8>> {
    let mut image = subject.bytes.clone();
    image.resize(len, 0);
    (len != subject.bytes.len()).then_some(image)
}

pub fn near_lengths(subject: &Subject) -> Images {
    let steps = [-64, -33, -32, -31, -8, -2, -1, 1, 2, 7, 8, 31, 32, 33, 64, 65_536];
    each(vec![subject.bytes.len()], &steps, |len, step: i64| cut_or_extended(subject, (len as i64 + step) as usize))
}

pub fn far_lengths(subject: &Subject) -> Images {
    let mut lens = vec![0, 1, 7, 8, 39, 40, 41, 71, 72, 73, 103, 104, LONGEST_BASE, 65_535, 65_536, LONGEST_CASE];
    lens.extend(subject.layout.offsets);
    each(lens, &[()], |len, ()| cut_or_extended(subject, len))
}
