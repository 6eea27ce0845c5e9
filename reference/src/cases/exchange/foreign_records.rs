//! Journal records of kind 7 on consistent images that no exchange has written: repair does as they say where the outcome
//! is consistent.

use crate::cases::damage::subject::put_u16;
use crate::cases::random::Random;
use crate::cases::repair::{journal_at, open, RepairCase, RepairCases, NONE};
use crate::cases::trees::bench::{bench_tree, full_bench_tree};
use crate::cases::trees::builder::Tree;
use crate::cases::trees::for_crashes::crash_tree;
use crate::cases::trees::generated::{generate, small_aim};
use crate::cases::trees::samples::every_state;

const KIND: u8 = 7;

/// Trees, each with a number of journal records.
pub fn trees() -> Vec<(Tree, usize)> {
    let mut trees = vec![(bench_tree(), 90), (full_bench_tree(), 40), (crash_tree(), 100), (every_state(), 90)];
    trees.extend((0..5).map(|seed| (generate(small_aim(&mut Random::new(800 + seed)), seed), 20)));
    trees.retain(|(tree, _)| tree.entries.len() > 1 && tree.inodes.len() > 1);
    trees
}

/// Numbers that mostly go together: each slot leads to one of the inodes, and the old one is in from.
fn numbers(tree: &Tree, random: &mut Random) -> [u16; 6] {
    let slot = |random: &mut Random| random.below(tree.entries.len());
    let any = |random: &mut Random| random.below(tree.inodes.len()) as u16;
    let (old_slot, new_slot) = (slot(random), slot(random));
    let (old, new) = (&tree.entries[old_slot], &tree.entries[new_slot]);
    let moved = if random.one_in(12) { any(random) } else { old.target };
    let replaced = if random.one_in(12) { any(random) } else { new.target };
    let from = if random.one_in(12) { *random.pick(&tree.directories()) } else { old.parent };
    let text = if random.one_in(20) { random.below(4) as u16 } else { NONE };
    let [moved, replaced] = if random.one_in(4) { [replaced, moved] } else { [moved, replaced] };
    [old_slot as u16, new_slot as u16, moved, replaced, from, text]
}

fn with_record(tree: &Tree, random: &mut Random) -> RepairCase {
    let mut image = tree.encode();
    let journal = journal_at(&image);
    (image[journal], image[journal + 1]) = (1, KIND);
    for (i, number) in numbers(tree, random).into_iter().enumerate() {
        put_u16(&mut image, journal + 2 + 2 * i, number.into());
    }
    image[journal + 16] = random.byte();
    open("records that no exchange wrote", image)
}

pub fn cases(tree: &Tree, count: usize, random: &mut Random) -> RepairCases {
    (0..count).map(|_| with_record(tree, random)).collect()
}
