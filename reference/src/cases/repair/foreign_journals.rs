//! Journal records on consistent images that no rename has written: repair does as they say where the outcome is right.

use super::{journal_at, open, RepairCase, RepairCases, NONE};
use crate::cases::damage::subject::put_u16;
use crate::cases::random::Random;
use crate::cases::trees::bench::{bench_tree, full_bench_tree};
use crate::cases::trees::builder::Tree;
use crate::cases::trees::for_crashes::crash_tree;
use crate::cases::trees::generated::{generate, small_aim};
use crate::cases::trees::samples::every_state;
use crate::model::image::{DIRECTORY, SYMLINK};

const CLASS: &str = "records that no rename wrote";

/// Trees, each with a number of journal records.
pub fn trees() -> Vec<(Tree, usize)> {
    let mut trees = vec![(bench_tree(), 160), (full_bench_tree(), 80), (crash_tree(), 160), (every_state(), 160)];
    trees.extend((0..6).map(|seed| (generate(small_aim(&mut Random::new(500 + seed)), seed), 30)));
    trees.retain(|(tree, _)| tree.entries.len() > 1 && tree.inodes.len() > 1);
    trees
}

fn any_below(count: usize, random: &mut Random) -> u16 {
    random.below(count.max(1)) as u16
}

/// Numbers that often go together: the new slot's target is the moved inode, the old slot's the replaced one.
fn numbers(tree: &Tree, random: &mut Random) -> [u16; 6] {
    let slot = |random: &mut Random| random.below(tree.entries.len());
    let (old_slot, new_slot) = (slot(random), slot(random));
    let (old, new) = (&tree.entries[old_slot], &tree.entries[new_slot]);
    let moved = if random.one_in(5) { any_below(tree.inodes.len(), random) } else { new.target };
    let replaced = match random.below(5) {
        0 => NONE,
        1 => any_below(tree.inodes.len(), random),
        _ => old.target,
    };
    let old_parent = match random.below(3) {
        0 => *random.pick(&tree.directories()),
        _ => old.parent,
    };
    let text = match tree.kind(replaced) {
        SYMLINK if !random.one_in(4) => tree.inodes[usize::from(replaced)].field,
        DIRECTORY if random.one_in(2) => any_below(tree.texts.len(), random),
        _ if random.one_in(8) => any_below(tree.texts.len(), random),
        _ => NONE,
    };
    [old_slot as u16, new_slot as u16, moved, replaced, old_parent, text]
}

fn with_numbers(tree: &Tree, numbers: [u16; 6], time: u8) -> RepairCase {
    let mut image = tree.encode();
    let journal = journal_at(&image);
    image[journal] = 1;
    for (i, number) in numbers.into_iter().enumerate() {
        put_u16(&mut image, journal + 2 + 2 * i, number.into());
    }
    image[journal + 16] = time;
    open(CLASS, image)
}

pub fn cases(tree: &Tree, count: usize, random: &mut Random) -> RepairCases {
    (0..count).map(|_| with_numbers(tree, numbers(tree, random), random.byte())).collect()
}
