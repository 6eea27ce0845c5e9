//! Files and symlinks on another file system than a directory that holds them.

use super::subject::{each, put_u16, spread, Subject};
use super::Images;
use crate::model::image::DIRECTORY;

pub fn of_non_directories(subject: &Subject) -> Images {
    each(spread(subject.non_directories()), &[1, 128, 255], |number, bits| {
        let at = subject.inode_at(number) + 1;
        subject.poke(at, subject.bytes[at] ^ bits)
    })
}

/// Directories that hold a non-directory, among them one of two directories that hold the same one.
pub fn of_directories(subject: &Subject) -> Images {
    let holds_other = |&directory: &usize| {
        let slots = subject.tree.entries_in(directory as u16).into_iter();
        slots.map(|slot| subject.tree.entries[slot].target).any(|target| subject.tree.kind(target) != DIRECTORY)
    };
    let holders = subject.directories().into_iter().filter(holds_other).collect();
    let poked = each(spread(holders), &[1, 128], |number, bits| {
        let at = subject.inode_at(number) + 1;
        subject.poke(at, subject.bytes[at] ^ bits)
    });
    poked.into_iter().chain(moved_to_another(subject)).collect()
}

/// One of a file's names moved to a directory of another file system.
fn moved_to_another(subject: &Subject) -> Images {
    let several = subject.non_directories().into_iter().filter(|&number| subject.tree.inodes[number].links > 1);
    each(spread(several.collect()), &[false, true], |number, last| {
        let slots = subject.tree.entries_to(number as u16);
        let slot = if last { slots[slots.len() - 1] } else { slots[0] };
        let file_system = subject.tree.inodes[number].file_system;
        let mut elsewhere = subject.directories().into_iter();
        let parent = elsewhere.find(|&directory| subject.tree.inodes[directory].file_system != file_system)?;
        let mut image = subject.bytes.clone();
        put_u16(&mut image, subject.entry_at(slot), parent);
        Some(image)
    })
}
