//! All cases about portable names: which images, and how many requests of each kind on them.

use crate::cases::portable::{
    allowed, bytes, is_portable, lengths, order, random_names, slashes, steps, symlinks, targets, Asked,
};
use crate::cases::random::Random;
use crate::cases::rename::slots;
use crate::cases::sticky::part::store;
use crate::cases::trees::for_names::names_tree;
use crate::cases::trees::for_renames::rename_tree;
use crate::cases::trees::generated::{generate, small_aim, FULL};
use crate::cases::trees::samples::{every_state, near_names};
use crate::cases::walk::random_walks::set_modes_and_texts;
use crate::cases::walk::{lookups, WalkCases};
use crate::cases::Collection;

/// Generated trees with some directories, so that there is much to rename.
const SMALL_TREES: usize = 5;
const FEWEST_DIRECTORIES: usize = 4;

/// Random renames on each of the trees, and random walks.
const RENAMES: usize = 30;
const WALKS: usize = 8;

/// Random renames whose new names are portable, on each of the trees and on one of full size.
const PORTABLE: usize = 60;
const PORTABLE_ON_FULL: usize = 150;

/// Makes every case. It panics where a case is not answered as its table tells.
pub fn all() -> Collection {
    let mut collection = Collection::default();
    collection.add_names_tree();
    collection.add_played(&rename_tree(), steps::cases(), store);
    let random = &mut Random::new(17);
    let generated = (0..).map(|seed| generate(small_aim(&mut Random::new(900 + seed)), seed));
    let small = generated.filter(|tree| tree.directories().len() >= FEWEST_DIRECTORIES).take(SMALL_TREES);
    for tree in std::iter::once(every_state()).chain(small) {
        let tree = random_names::arranged(tree, random);
        collection.add_played(&tree, random_names::renames(&tree, RENAMES, random), store);
        collection.add_on(&tree, random_names::walks(&tree, WALKS, random));
        collection.add_played(&tree, random_names::portable_renames(&tree, PORTABLE, random), store);
    }
    collection.add_on(&near_names(), looked_up());
    let mut full = generate(FULL, 3);
    slots::arrange(&mut full);
    let to_free_slots = slots::in_a_full_tree(&full, random).into_iter().map(random_names::portable);
    collection.add_played(&full, to_free_slots.collect(), store);
    set_modes_and_texts(&mut full, random);
    collection.add_played(&full, random_names::portable_renames(&full, PORTABLE_ON_FULL, random), store);
    collection
}

/// The portable ones of names that are nearly equal, in one of the directories that have them.
fn looked_up() -> WalkCases {
    let tree = near_names();
    let mut slots = tree.entries_in(2);
    slots.retain(|&slot| is_portable(&tree.entries[slot].name));
    lookups::of_portable_names("near names", &tree, &slots)
}

impl Collection {
    /// Most requests are asked twice: where both walks end, and what becomes of the rename. Those that have every byte
    /// are asked once, being so many.
    fn add_names_tree(&mut self) {
        let tree = names_tree();
        let tables =
            [lengths::cases(), slashes::cases(), symlinks::cases(), allowed::cases(), targets::cases(), order::cases()];
        let renames = |cases: &[Asked]| cases.iter().map(Asked::as_rename).collect();
        let walks = |cases: &[Asked]| cases.iter().map(Asked::as_walk).collect();
        self.add_on(&tree, walks(&bytes::of_missing_names(0..1)));
        self.add_played(&tree, renames(&bytes::of_missing_names(1..3)), store);
        self.add_played(&tree, renames(&bytes::of_existing_names()), store);
        self.add_on(&tree, walks(&tables.concat()));
        self.add_played(&tree, renames(&tables.concat()), store);
        self.add_played(&tree, [order::with_groups(), order::ahead_of_the_walks()].concat(), store);
    }
}
