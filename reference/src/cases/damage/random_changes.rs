//! Random changes of consistent images; what they lead to is for the check to say.

use crate::cases::damage::subject::Subject;
use crate::cases::random::Random;
use crate::cases::trees::builder::{Entry, Tree};
use crate::model::layout::{CONTENTS_LEN, ENTRIES, HANDLES, INODES, JOURNAL, SECTIONS, TEXTS};

/// One to four bytes changed, most of them in fields that a rule looks at.
pub fn flip(subject: &Subject, random: &mut Random) -> Vec<u8> {
    let mut image = subject.bytes.clone();
    for _ in 0..1 + random.below(4) * random.below(2) {
        let at = place(subject, random);
        let old = image[at];
        let new = match random.below(5) {
            0 => random.byte(),
            1 => old ^ (1 << random.below(8)),
            2 => old.wrapping_add(1),
            3 => old.wrapping_sub(1),
            _ => *random.pick(&[0, 1, 2, 3, 4, 24, 25, 46, 47, 63, 64, 65, 128, 255]),
        };
        image[at] = if new == old { old ^ 1 } else { new };
    }
    image
}

/// A position in a section that has records; rarely in the table of contents or the journal record.
fn place(subject: &Subject, random: &mut Random) -> usize {
    let section = *random.pick(&[
        INODES, INODES, INODES, INODES, INODES, INODES, ENTRIES, ENTRIES, ENTRIES, ENTRIES, TEXTS, HANDLES, HANDLES,
        HANDLES, JOURNAL,
    ]);
    let count = subject.layout.counts[section];
    if count == 0 || random.one_in(24) {
        return random.below(CONTENTS_LEN);
    }
    let fields: &[usize] = match section {
        INODES => &[0, 1, 2, 3, 5, 9, 12, 13, 14, 15, 20, 30],
        ENTRIES => &[0, 1, 2, 3, 4, 8, 8, 9, 16, 31],
        TEXTS => &[0, 1, 2, 63],
        HANDLES => &[0, 2, 3],
        _ => &[0, 2],
    };
    let within = match random.below(3) {
        0 => random.below(SECTIONS[section].record_len),
        _ => *random.pick(fields),
    };
    subject.layout.position(section, random.below(count)) + within
}

/// One or two entries, symlinks or file systems changed; then, mostly, all counts made right again.
pub fn shuffle(subject: &Subject, random: &mut Random) -> Vec<u8> {
    let mut tree = subject.tree.clone();
    for _ in 0..1 + random.below(2) {
        change(&mut tree, subject, random);
    }
    if !random.one_in(5) {
        tree.recount();
    }
    tree.encode()
}

fn change(tree: &mut Tree, subject: &Subject, random: &mut Random) {
    let slots = subject.used_slots();
    if slots.is_empty() {
        tree.inodes[0].file_system ^= 128;
        return;
    }
    let (slot, other) = (*random.pick(&slots), *random.pick(&slots));
    let directory = *random.pick(&subject.directories()) as u16;
    let inode = *random.pick(&subject.used_inodes());
    match random.below(8) {
        0 => tree.entries[slot].parent = directory,
        1 => tree.entries[slot].target = inode as u16,
        2 => tree.entries[slot].name = tree.entries[other].name.clone(),
        3 => tree.entries[slot].parent = tree.entries[other].parent,
        4 => exchange_targets(tree, slot, other),
        5 => tree.inodes[inode].file_system ^= *random.pick(&[1, 127, 128]),
        6 => {
            let entry = Entry { parent: directory, ..tree.entries[slot].clone() };
            tree.add(entry);
        }
        _ => tree.inodes[inode].field = tree.inodes[*random.pick(&subject.used_inodes())].field,
    }
}

fn exchange_targets(tree: &mut Tree, slot: usize, other: usize) {
    let target = tree.entries[slot].target;
    tree.entries[slot].target = tree.entries[other].target;
    tree.entries[other].target = target;
}
