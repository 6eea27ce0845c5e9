//! All cases about the sticky bit: which images, and how many requests of each kind on them.

use crate::cases::random::Random;
use crate::cases::sticky::{exempt, modes, nearly_exempt, one_directory, order, random_trees, replaced, sides};
use crate::cases::trees::for_renames::rename_tree;
use crate::cases::trees::generated::{generate, small_aim};
use crate::cases::trees::samples::every_state;
use crate::cases::Collection;
use crate::vectors::{Renaming, Writer};

/// Generated trees with some directories, so that there is much to rename.
const SMALL_TREES: usize = 5;
const FEWEST_DIRECTORIES: usize = 4;

const ON_A_TREE: usize = 24;

/// Makes every case. It panics where a case is not answered as its table tells.
pub fn all() -> Collection {
    let mut collection = Collection::default();
    let on_the_rename_tree = [
        sides::cases(),
        exempt::cases(),
        nearly_exempt::cases(),
        replaced::cases(),
        one_directory::cases(),
        modes::cases(),
        order::cases(),
    ];
    collection.add_played(&rename_tree(), on_the_rename_tree.concat(), store);
    let random = &mut Random::new(14);
    let generated = (0..).map(|seed| generate(small_aim(&mut Random::new(500 + seed)), seed));
    let small = generated.filter(|tree| tree.directories().len() >= FEWEST_DIRECTORIES).take(SMALL_TREES);
    for tree in std::iter::once(every_state()).chain(small) {
        let tree = random_trees::arranged(tree, random);
        collection.add_played(&tree, random_trees::cases(&tree, ON_A_TREE, random), store);
    }
    collection
}

/// Only where the caller has further groups is a list stored.
pub fn store(writer: &mut Writer, home: &[u8], renaming: &Renaming) {
    match renaming.request.who.further.is_empty() {
        true => writer.rename(home, renaming),
        false => writer.rename_with_groups(home, renaming),
    }
}
