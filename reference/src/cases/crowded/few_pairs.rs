//! Numbers of colliding pairs about 1,024, after which the library turns from the buckets to the order of the entries.

use super::bases::{crowds, short_names_by_bucket};
use super::duplicates::name_alike;
use super::{Table, LAST_SLOT, NAME_TAKEN, NO_RULE};
use crate::bench::bucket::{bucket, BUCKETS};
use crate::bench::images::{in_root, wide};
use crate::cases::trees::builder::Tree;

/// So many names in one bucket are 990 pairs; with one more they are 1,035.
const CROWD: usize = 45;

/// Names in one bucket each, 1,024 pairs in all: 990, 28, 3 and three times 1.
const CROWDS: [usize; 6] = [CROWD, 8, 3, 2, 2, 2];

fn rename(tree: &mut Tree, slot: usize, name: &[u8]) {
    tree.entries[slot].name = name.to_vec();
}

/// 990 and 1,035 pairs, the crowd anywhere among the slots.
pub fn near() -> Table {
    let mut table = Table::new(wide(crowds(&[CROWD])));
    let buckets = short_names_by_bucket();
    let entries = &table.subject.tree.entries;
    let (crowd, lone): (Vec<usize>, Vec<usize>) =
        (0..entries.len()).partition(|&slot| bucket(0, &entries[slot].name) == 0);
    let pairs = [
        [lone[0], lone[lone.len() - 1]],
        [lone[lone.len() - 2], lone[lone.len() - 1]],
        [crowd[0], crowd[CROWD - 1]],
        [crowd[CROWD - 2], crowd[CROWD - 1]],
    ];
    let joins = [lone[2], lone[lone.len() - 3]];
    table.add("990 pairs", NO_RULE, |_| {});
    for slot in joins {
        table.add("1,035 pairs", NO_RULE, |tree| rename(tree, slot, &buckets[0][CROWD]));
    }
    for [one, other] in pairs {
        table.add("990 pairs, a name twice", NAME_TAKEN, |tree| name_alike(tree, one, other));
        table.add("1,035 pairs, a name twice", NAME_TAKEN, |tree| {
            rename(tree, joins[0], &buckets[0][CROWD]);
            name_alike(tree, one, other);
        });
    }
    table
}

/// 1,024 pairs in the first slots: what comes in the last slots is the 1,024th pair, or the one behind.
pub fn at_the_limit() -> Table {
    let mut table = Table::new(in_root(crowds(&CROWDS)));
    let buckets = short_names_by_bucket();
    let crowded: usize = CROWDS.iter().sum();
    let bucket_of = |slot: usize| bucket(0, &table.subject.tree.entries[slot].name) as usize;
    let beside_the_last = buckets[bucket_of(LAST_SLOT - 1)][1].clone();
    let beside_the_first = buckets[bucket_of(crowded)][1].clone();
    let alone = buckets[BUCKETS as usize - 1][0].clone();
    let part = |tree: &mut Tree| rename(tree, crowded - 1, &alone);
    table.add("1,024 pairs", NO_RULE, |_| {});
    table.add("1,025 pairs", NO_RULE, |tree| rename(tree, LAST_SLOT, &beside_the_last));
    table.add("1,025 pairs", NO_RULE, |tree| rename(tree, crowded + 1, &beside_the_first));
    table.add("1,023 pairs", NO_RULE, part);
    table.add("1,024 pairs", NO_RULE, |tree| {
        part(tree);
        rename(tree, LAST_SLOT, &beside_the_last);
    });
    for one in [crowded, LAST_SLOT - 1] {
        table.add("1,025th pair alike", NAME_TAKEN, |tree| name_alike(tree, one, LAST_SLOT));
        table.add("1,024th pair alike", NAME_TAKEN, |tree| {
            part(tree);
            name_alike(tree, one, LAST_SLOT);
        });
    }
    table
}
