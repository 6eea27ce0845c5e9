//! All cases about the number of symlinks in one path: which trees, and how many requests of each kind on them.

use crate::cases::links::{pairs, random_paths, random_trees, renames};
use crate::cases::random::Random;
use crate::cases::trees::for_links::link_tree;
use crate::cases::Collection;
use crate::vectors::Writer;

const FOR_OTHERS: usize = 60;

/// Trees of random symlinks, and the requests on each.
const TREES: usize = 5;
const WALKS: usize = 27;
const RENAMES: usize = 18;

/// Makes every case. It panics where a case is not answered as its table tells.
pub fn all() -> Collection {
    let mut collection = Collection::default();
    let random = &mut Random::new(16);
    let tree = link_tree();
    collection.add_on(&tree, pairs::single());
    collection.add_on(&tree, pairs::both_longest());
    collection.add_on(&tree, pairs::both_refused(random));
    collection.add_on(&tree, pairs::for_others(FOR_OTHERS, random));
    collection.add_played(&tree, renames::cases(), Writer::rename);
    for _ in 0..TREES {
        let maze = random_trees::maze(random);
        collection.add_on(&maze.tree, random_paths::walks(&maze, WALKS, random));
        collection.add_played(&maze.tree, random_paths::renames(&maze, RENAMES, random), Writer::rename);
    }
    collection
}
