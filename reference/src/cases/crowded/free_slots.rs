//! Free slots among names of one bucket: they have no bucket, and are like each other.

use super::duplicates::name_alike;
use super::{Table, LAST_SLOT, NAME_TAKEN, NO_RULE};
use crate::cases::trees::builder::{Entry, Tree};

fn free(tree: &mut Tree, slot: usize) {
    tree.entries[slot] = Entry::default();
    tree.recount();
}

/// One slot free: the first, the last, or one between.
pub fn single(table: &mut Table) {
    table.add("one bucket", NO_RULE, |_| {});
    for slot in [0, 1, 511, LAST_SLOT - 1, LAST_SLOT] {
        table.add("free slots", NO_RULE, |tree| free(tree, slot));
    }
    for [slot, one, other] in [[0, 1, LAST_SLOT], [511, 510, 512], [LAST_SLOT, 0, LAST_SLOT - 1]] {
        table.add("free slots, a name twice", NAME_TAKEN, |tree| {
            free(tree, slot);
            name_alike(tree, one, other);
        });
    }
}

/// Many slots free: in front, at the end and between.
pub fn many(table: &mut Table) {
    let used = table.subject.used_slots();
    let (middle, last) = (used.len() / 2, used.len() - 1);
    table.add("free slots", NO_RULE, |_| {});
    for [one, other] in [[0, 1], [0, last], [middle, middle + 1], [last - 1, last]] {
        table.add("free slots, a name twice", NAME_TAKEN, |tree| name_alike(tree, used[one], used[other]));
    }
}
