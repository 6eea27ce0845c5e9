//! Damage to the parents, targets and names of directory entries.

use super::subject::{each, spread, Subject};
use super::Images;
use crate::cases::trees::builder::{Entry, Tree};
use crate::model::image::NAME_MAX;

/// Numbers that no inode has; 2048 records of 32 bytes are 65536 bytes, where 16-bit products wrap.
fn beyond(subject: &Subject, number: u16) -> [u16; 5] {
    let count = subject.tree.inodes.len() as u16;
    [count, count + 1, number + 2048, number | 0x8000, 65_535]
}

fn reparented(subject: &Subject, slot: usize, parent: u16) -> Option<Vec<u8>> {
    subject.vary(|tree| {
        tree.entries[slot].parent = parent;
        tree.recount();
        true
    })
}

fn retargeted(subject: &Subject, slot: usize, target: u16) -> Option<Vec<u8>> {
    subject.vary(|tree| {
        tree.entries[slot].target = target;
        tree.recount();
        true
    })
}

pub fn parents_no_directory(subject: &Subject) -> Images {
    let parents = spread(subject.non_directories());
    each(spread(subject.used_slots()), &parents, |slot, parent| reparented(subject, slot, parent as u16))
}

pub fn parents_free(subject: &Subject) -> Images {
    let parents = spread(subject.free_inodes());
    each(spread(subject.used_slots()), &parents, |slot, parent| reparented(subject, slot, parent as u16))
}

pub fn parents_beyond(subject: &Subject) -> Images {
    each(spread(subject.used_slots()), &[0, 1, 2, 3, 4], |slot, which: usize| {
        let parent = beyond(subject, subject.tree.entries[slot].parent)[which];
        // Without a recount, since nothing is counted for a parent that is not there.
        subject.poke_u16(subject.entry_at(slot), parent.into())
    })
}

pub fn targets_free(subject: &Subject) -> Images {
    let targets = spread(subject.free_inodes());
    each(spread(subject.used_slots()), &targets, |slot, target| retargeted(subject, slot, target as u16))
}

pub fn targets_beyond(subject: &Subject) -> Images {
    each(spread(subject.used_slots()), &[0, 1, 2, 3, 4], |slot, which: usize| {
        let target = beyond(subject, subject.tree.entries[slot].target)[which];
        retargeted(subject, slot, target)
    })
}

fn new_entry(subject: &Subject, parent: usize, target: usize) -> Option<Vec<u8>> {
    subject.vary(|tree| tree.add(Entry::new(parent as u16, target as u16, b"~new")))
}

pub fn new_targets_free(subject: &Subject) -> Images {
    let targets = spread(subject.free_inodes());
    each(spread(subject.directories()), &targets, |parent, target| new_entry(subject, parent, target))
}

pub fn new_targets_beyond(subject: &Subject) -> Images {
    each(spread(subject.directories()), &[0, 1, 2, 3, 4], |parent, which: usize| {
        new_entry(subject, parent, beyond(subject, parent as u16)[which].into())
    })
}

/// Names that fill their records among them: there, only the length is wrong.
pub fn name_lengths(subject: &Subject) -> Images {
    let longest = |&slot: &usize| subject.tree.entries[slot].name.len() == NAME_MAX;
    let mut slots = spread(subject.used_slots().into_iter().filter(longest).collect());
    slots.extend(spread(subject.used_slots()));
    each(slots, &[25, 26, 32, 128, 255], |slot, len| subject.poke(subject.entry_at(slot) + 4, len))
}

fn names_with(subject: &Subject, byte: u8) -> Images {
    each(spread(subject.used_slots()), &[0, 1, 2], |slot, place: usize| {
        let last = subject.tree.entries[slot].name.len() - 1;
        subject.poke(subject.entry_at(slot) + 8 + [0, last / 2, last][place], byte)
    })
}

pub fn names_with_zero(subject: &Subject) -> Images {
    names_with(subject, 0)
}

pub fn names_with_slash(subject: &Subject) -> Images {
    names_with(subject, b'/')
}

pub fn dot_names(subject: &Subject) -> Images {
    let names: [&[u8]; 2] = [b".", b".."];
    each(spread(subject.used_slots()), &names, |slot, name| {
        subject.vary(|tree| {
            tree.entries[slot].name = name.to_vec();
            true
        })
    })
}

/// Gives the entry in the second slot the name of the first.
fn copy_name(tree: &mut Tree, from: usize, to: usize) {
    tree.entries[to].name = tree.entries[from].name.clone();
}

/// Pairs of slots of one directory: the first and the last, then neighbours from both ends. The
/// directory of the first slot comes first, since its pairs may lie at the ends already.
fn pairs(subject: &Subject) -> Vec<(usize, usize)> {
    let mut directories = subject.directories();
    directories.sort_by_key(|&directory| subject.tree.entries_in(directory as u16).first().copied());
    let mut pairs = vec![];
    for directory in directories {
        let slots = subject.tree.entries_in(directory as u16);
        if let [first, .., last] = slots[..] {
            let mut neighbours: Vec<(usize, usize)> = slots.windows(2).map(|pair| (pair[0], pair[1])).collect();
            neighbours.rotate_right(1);
            pairs.push((first, last));
            pairs.extend(neighbours);
        }
    }
    pairs
}

pub fn same_names(subject: &Subject) -> Images {
    let pairs = pairs(subject);
    each(spread((0..pairs.len()).collect()), &[false, true], |number, back| {
        let (one, other) = pairs[number];
        subject.vary(|tree| {
            match back {
                false => copy_name(tree, one, other),
                true => copy_name(tree, other, one),
            }
            true
        })
    })
}

/// The two entries moved to the ends, and to either end's neighbour, of the table.
pub fn same_names_at_the_ends(subject: &Subject) -> Images {
    let pairs = pairs(subject);
    let last = subject.tree.entries.len().saturating_sub(1);
    let ends = [(0, last), (0, 1), (last.saturating_sub(1), last)];
    let mut numbers = spread((0..pairs.len()).collect());
    numbers.extend((2..pairs.len()).take(1));
    each(numbers, &ends, |number, (low, high)| {
        let (one, other) = pairs[number];
        subject.vary(|tree| {
            copy_name(tree, one, other);
            tree.entries.swap(low, one);
            // The exchange may have moved the second entry.
            tree.entries.swap(high, if other == low { one } else { other });
            low != high
        })
    })
}
