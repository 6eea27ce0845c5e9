//! Damage to link counts.

use super::subject::{each, spread, Subject};
use super::Images;
use crate::cases::trees::builder::{Entry, Inode};
use crate::model::image::{DIRECTORY, FILE, FREE, LINKS_MAX};

/// Counts beside the right one; 256 more is the same in its low byte.
fn wrong_counts(subject: &Subject, inodes: Vec<usize>) -> Images {
    let moved = each(spread(inodes.clone()), &[-1, 1, 256, 32_768], |number, step: i64| {
        let count = i64::from(subject.tree.inodes[number].links) + step;
        subject.poke_u16(subject.inode_at(number) + 12, count as usize)
    });
    let set = each(spread(inodes), &[0, 64, 65, 66, 65_535], |number, count| {
        subject.poke_u16(subject.inode_at(number) + 12, count)
    });
    [moved, set].concat()
}

pub fn directory_counts(subject: &Subject) -> Images {
    wrong_counts(subject, subject.directories())
}

pub fn other_counts(subject: &Subject) -> Images {
    wrong_counts(subject, subject.non_directories())
}

/// A file with no entry and count 0, so that the count is right.
pub fn nameless_files(subject: &Subject) -> Images {
    each(spread(subject.free_inodes()), &[0, 255], |number, file_system| {
        subject.vary(|tree| {
            tree.inodes[number] = Inode { kind: FILE, file_system, mode: 0o600, ..Inode::default() };
            true
        })
    })
}

pub fn last_names_removed(subject: &Subject) -> Images {
    each(spread(subject.non_directories()), &[()], |number, ()| {
        subject.vary(|tree| {
            for slot in tree.entries_to(number as u16) {
                tree.entries[slot] = Entry::default();
            }
            tree.recount();
            true
        })
    })
}

pub fn too_many_names(subject: &Subject) -> Images {
    let full = subject.non_directories().into_iter().filter(|&number| subject.tree.inodes[number].links == LINKS_MAX);
    each(full.collect(), &[b"~65".as_slice(), b"~"], |number, name| {
        subject.vary(|tree| {
            let slot = tree.entries_to(number as u16)[0];
            let added = tree.add(Entry::new(tree.entries[slot].parent, number as u16, name));
            tree.recount();
            added
        })
    })
}

pub fn too_many_subdirectories(subject: &Subject) -> Images {
    let full = subject.directories().into_iter().filter(|&number| subject.tree.inodes[number].links == LINKS_MAX);
    each(full.collect(), &[b"~63".as_slice(), b"~"], |parent, name| {
        subject.vary(|tree| {
            let Some(number) = tree.inodes.iter().position(|inode| inode.kind == FREE) else {
                return false;
            };
            tree.inodes[number].kind = DIRECTORY;
            let added = tree.add(Entry::new(parent as u16, number as u16, name));
            tree.recount();
            added
        })
    })
}
