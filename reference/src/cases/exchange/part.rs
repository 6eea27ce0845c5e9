//! All cases with flags, and all repairs of exchanges: which images, and how many requests of each kind on them.

use crate::cases::exchange::{
    ancestors, around_the_flags, bench, buffers, damaged_images, foreign_records, full_size, link_counts, names,
    new_name, on_the_way, owners, permissions, random_exchanges, record_form, record_numbers, record_slots, scenes,
    times, walks,
};
use crate::cases::random::Random;
use crate::cases::rename::RenameCases;
use crate::cases::trees::bench::{bench_tree, full_bench_tree};
use crate::cases::trees::builder::Tree;
use crate::cases::trees::for_crashes::crash_tree;
use crate::cases::trees::for_names::names_tree;
use crate::cases::trees::for_renames::rename_tree;
use crate::cases::trees::generated::{generate, small_aim, FULL};
use crate::cases::trees::samples::every_state;
use crate::cases::Collection;
use crate::vectors::Writer;

/// Generated trees with some directories, so that there is much to exchange.
const SMALL_TREES: usize = 9;
const FEWEST_DIRECTORIES: usize = 4;

const ON_A_TREE: usize = 50;

/// Makes every case. It panics where a case is not answered as its table tells.
pub fn all() -> Collection {
    let mut collection = Collection::default();
    let random = &mut Random::new(26);
    for tree in [bench_tree(), full_bench_tree()] {
        collection.add_flagged(&tree, bench::cases(&tree));
    }
    let on_the_rename_tree = [
        around_the_flags::cases(random),
        new_name::cases(),
        scenes::cases(random),
        ancestors::cases(),
        permissions::cases(),
        owners::cases(),
        link_counts::cases(),
        times::cases(),
        buffers::cases(),
        walks::on_the_rename_tree(),
    ];
    collection.add_flagged(&rename_tree(), on_the_rename_tree.concat());
    for (tree, cases) in [link_counts::in_two_wide(), walks::on_the_walk_tree(random), (names_tree(), names::cases())] {
        collection.add_flagged(&tree, cases);
    }
    collection.add_random(random);
    collection.add_exchanges_repaired(random);
    collection
}

impl Collection {
    fn add_flagged(&mut self, home: &Tree, cases: RenameCases) {
        self.add_played(home, cases, Writer::rename_with_flags);
    }

    fn add_random(&mut self, random: &mut Random) {
        let generated = (0..).map(|seed| generate(small_aim(&mut Random::new(600 + seed)), seed));
        let small = generated.filter(|tree| tree.directories().len() >= FEWEST_DIRECTORIES).take(SMALL_TREES);
        for tree in std::iter::once(every_state()).chain(small) {
            let tree = random_exchanges::arranged(tree, random);
            let cases = random_exchanges::cases(&tree, ON_A_TREE, random);
            self.add_flagged(&tree, cases);
        }
    }

    fn add_exchanges_repaired(&mut self, random: &mut Random) {
        self.add_repairs(&bench_tree().encode(), on_the_way::on_the_bench());
        let on_the_crash_tree = [
            on_the_way::cases(),
            record_form::cases(),
            record_numbers::cases(),
            record_slots::cases(),
            damaged_images::cases(random),
        ];
        self.add_repairs(&crash_tree().encode(), on_the_crash_tree.concat());
        for (tree, count) in foreign_records::trees() {
            self.add_repairs(&tree.encode(), foreign_records::cases(&tree, count, random));
        }
        let tree = generate(FULL, 8);
        let exchanged = full_size::any_exchange(&tree, random);
        self.add_flagged(&tree, vec![exchanged.as_rename()]);
        self.add_repairs(&exchanged.image, exchanged.repairs());
    }
}
