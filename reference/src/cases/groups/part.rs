//! All cases with further groups: which images, and how many requests of each kind on them.

use crate::cases::groups::{group_numbers, handles, one_class, places, random_lists, sticky, too_many, ways};
use crate::cases::random::Random;
use crate::cases::trees::for_renames::rename_tree;
use crate::cases::trees::generated::{generate, small_aim};
use crate::cases::trees::samples::every_state;
use crate::cases::Collection;
use crate::vectors::Writer;

const SMALL_TREES: u64 = 5;
const ON_A_TREE: usize = 24;

/// Makes every case. It panics where a case is not answered as its table tells.
pub fn all() -> Collection {
    let mut collection = Collection::default();
    let random = &mut Random::new(12);
    let on_the_rename_tree = [
        places::cases(),
        group_numbers::cases(),
        one_class::cases(),
        too_many::cases(),
        ways::cases(),
        handles::cases(),
        sticky::cases(),
    ];
    collection.add_played(&rename_tree(), on_the_rename_tree.concat(), Writer::rename_with_groups);
    let small = (0..SMALL_TREES).map(|seed| generate(small_aim(&mut Random::new(400 + seed)), seed));
    for tree in std::iter::once(every_state()).chain(small) {
        let tree = random_lists::arranged(tree, random);
        let cases = random_lists::cases(&tree, ON_A_TREE, random);
        collection.add_played(&tree, cases, Writer::rename_with_groups);
    }
    collection
}
