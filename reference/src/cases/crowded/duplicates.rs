//! One name for several entries, and names and parents that differ in little.

use super::{Table, LAST_SLOT, NAME_TAKEN, NO_RULE};
use crate::cases::random::Random;
use crate::cases::trees::builder::Tree;

/// The ends, and neighbours at them and in the middle.
const PAIRS: [[usize; 2]; 5] = [[0, 1], [0, LAST_SLOT], [LAST_SLOT - 1, LAST_SLOT], [511, 512], [1, 2]];

const RANDOM_PAIRS: usize = 4;

/// A byte that no name of these images has.
const UNUSED: u8 = b'~';

pub fn in_one_bucket(table: &mut Table, random: &mut Random) {
    table.add("one bucket", NO_RULE, |_| {});
    twice(table, "one bucket, a name twice", random);
    for [one, other] in PAIRS {
        table.add("one bucket, a name twice", NAME_TAKEN, |tree| name_alike(tree, other, one));
    }
    for slots in [[0, 511, LAST_SLOT], [LAST_SLOT, LAST_SLOT - 1, LAST_SLOT - 2]] {
        table.add("one bucket, three alike", NAME_TAKEN, |tree| {
            slots[1..].iter().for_each(|&slot| name_alike(tree, slots[0], slot));
        });
    }
    for [[one, other], [third, fourth]] in [[PAIRS[0], PAIRS[2]], [[600, 3], [601, 4]]] {
        table.add("one bucket, two names twice", NAME_TAKEN, |tree| {
            name_alike(tree, one, other);
            name_alike(tree, third, fourth);
        });
    }
    nearly_alike(table, "one bucket, nearly alike");
    other_directories(table, "one bucket, another directory");
    in_one_subdirectory(table, "one bucket, twice in another");
    table.add_pending(&[14], |_| {});
    table.add_pending(&[14, 27], |tree| name_alike(tree, 0, LAST_SLOT));
}

/// Names of 24 bytes.
pub fn of_full_length(table: &mut Table) {
    table.add("one bucket", NO_RULE, |_| {});
    for [one, other] in PAIRS {
        table.add("one bucket, a name twice", NAME_TAKEN, |tree| name_alike(tree, one, other));
    }
    table.add("one bucket, nearly alike", NO_RULE, |tree| differ_at(tree, [0, LAST_SLOT], 23));
    table.add("one bucket, nearly alike", NO_RULE, |tree| differ_at(tree, [511, 512], 0));
    table.add("one bucket, nearly alike", NO_RULE, |tree| {
        name_alike(tree, 0, LAST_SLOT);
        tree.entries[LAST_SLOT].name.pop();
    });
}

pub fn apart(table: &mut Table, random: &mut Random) {
    table.add("names apart", NO_RULE, |_| {});
    twice(table, "names apart, a name twice", random);
    nearly_alike(table, "names apart, nearly alike");
    other_directories(table, "names apart, another directory");
    in_one_subdirectory(table, "names apart, twice in another");
}

pub fn name_alike(tree: &mut Tree, from: usize, to: usize) {
    tree.entries[to].name = tree.entries[from].name.clone();
}

/// The later slot with the earlier one's name, and some pairs of any slots.
fn twice(table: &mut Table, class: &'static str, random: &mut Random) {
    let any = |_| {
        let one = random.below(LAST_SLOT);
        [one, one + 1 + random.below(LAST_SLOT - one)]
    };
    for [one, other] in PAIRS.into_iter().chain((0..RANDOM_PAIRS).map(any)) {
        table.add(class, NAME_TAKEN, |tree| name_alike(tree, one, other));
    }
}

/// The second slot with the first one's name but for one byte.
fn differ_at(tree: &mut Tree, [one, other]: [usize; 2], at: usize) {
    name_alike(tree, one, other);
    tree.entries[other].name[at] = UNUSED;
}

fn nearly_alike(table: &mut Table, class: &'static str) {
    let [one, other] = PAIRS[1];
    let last = table.subject.tree.entries[one].name.len() - 1;
    table.add(class, NO_RULE, |tree| differ_at(tree, [one, other], last));
    table.add(class, NO_RULE, |tree| differ_at(tree, [one, other], 0));
    table.add(class, NO_RULE, |tree| {
        name_alike(tree, one, other);
        tree.entries[other].name.pop();
    });
    table.add(class, NO_RULE, |tree| {
        name_alike(tree, one, other);
        tree.entries[other].name.push(1);
    });
}

/// Puts an entry with the name of another into one of the subdirectories, and counts anew.
fn move_alike(tree: &mut Tree, from: usize, to: usize, directory: u16) {
    name_alike(tree, from, to);
    tree.entries[to].parent = directory;
    tree.recount();
}

/// The name is taken in root alone. The last case moves a directory.
fn other_directories(table: &mut Table, class: &'static str) {
    let moved = table.subject.tree.entries_to(2)[0];
    for ([one, other], directory) in
        [PAIRS[0], PAIRS[1], PAIRS[3]].into_iter().zip([1, 40, 3]).chain([([LAST_SLOT, moved], 1)])
    {
        table.add(class, NO_RULE, |tree| move_alike(tree, one, other, directory));
    }
}

/// Two names alike in one subdirectory.
fn in_one_subdirectory(table: &mut Table, class: &'static str) {
    for [one, other] in [PAIRS[1], PAIRS[3]] {
        table.add(class, NAME_TAKEN, |tree| {
            move_alike(tree, one, other, 1);
            tree.entries[one].parent = 1;
            tree.recount();
        });
    }
}
