//! All cases of the walk: which trees, and how many requests of each kind on them.

use crate::cases::damage::subject::spread;
use crate::cases::random::Random;
use crate::cases::trees::bench::{bench_tree, full_bench_tree};
use crate::cases::trees::builder::Tree;
use crate::cases::trees::for_walks::walk_tree;
use crate::cases::trees::generated::{generate, small_aim, DEEP, FULL};
use crate::cases::trees::samples::{every_state, many_names, near_names};
use crate::cases::walk::{bench, lookups, permissions, random_walks, requests, single_paths, Told, WalkCases};
use crate::cases::Collection;
use crate::model::check::check;
use crate::model::image::Image;
use crate::model::numbers::DONE;
use crate::model::walk::{walk_both, Found, Walks};
use crate::vectors::{checksum, Walking};

const SMALL_TREES: u64 = 10;

/// What stands for a slot and an inode where new's final name is missing.
const NONE: u16 = 65_535;

/// Makes every case. It panics where a case is not answered as its table tells.
pub fn all() -> Collection {
    let mut collection = Collection::default();
    let random = &mut Random::new(5);
    for tree in [bench_tree(), full_bench_tree()] {
        collection.add_on(&tree, bench::cases(&tree));
    }
    collection.add_walk_tree(random);
    for (tree, count) in [(near_names(), 32), (many_names(), 8)] {
        let slots = used_slots(&tree);
        collection.add_on(&tree, lookups::cases(&tree, &slots[slots.len() - count..]));
    }
    for (tree, count) in walkable_trees(random) {
        collection.add_on(&tree, lookups::cases(&tree, &spread(used_slots(&tree))));
        collection.add_on(&tree, random_walks::cases(&tree, count, random));
    }
    collection.add_on(&walk_tree(), permissions::under_a_file());
    collection
}

fn used_slots(tree: &Tree) -> Vec<usize> {
    (0..tree.entries.len()).filter(|&slot| !tree.entries[slot].is_free()).collect()
}

/// Trees for random walks, small to full size, each with a number of requests.
fn walkable_trees(random: &mut Random) -> Vec<(Tree, usize)> {
    let mut trees = vec![(every_state(), 150)];
    trees.extend((0..SMALL_TREES).map(|seed| (generate(small_aim(&mut Random::new(200 + seed)), seed), 70)));
    trees.extend([(generate(FULL, 2), 180), (generate(DEEP, 3), 60)]);
    trees.iter_mut().for_each(|(tree, _)| random_walks::set_modes_and_texts(tree, random));
    trees
}

impl Collection {
    fn add_walk_tree(&mut self, random: &mut Random) {
        let tree = walk_tree();
        self.add_on(&tree, single_paths::single());
        self.add_on(&tree, single_paths::pairs(300, random));
        self.add_on(&tree, single_paths::pairs_for_others(220, random));
        self.add_on(&tree, requests::cases());
        self.add_on(&tree, permissions::cases());
        self.add_on(&tree, random_walks::cases(&tree, 360, random));
    }

    /// Cases on variants of one tree.
    pub fn add_on(&mut self, home: &Tree, cases: WalkCases) {
        let home = home.encode();
        for case in cases {
            let walking = Walking { image: case.tree.encode(), request: case.request };
            assert_eq!(check(&walking.image), DONE, "{}: the tree is not consistent", case.class);
            let walks = walks_of(&walking);
            let answer = Told { number: walks.number, steps: walks.steps };
            assert_eq!(answer, case.told.unwrap_or(answer), "{}: {:?}", case.class, walking.request);
            self.writer.walk(&home, &walking);
            self.count(case.class, walks.number, line(&walks));
        }
    }
}

pub fn walks_of(walking: &Walking) -> Walks {
    let image = Image::read(&walking.image).expect("the layout is right");
    walk_both(&image, &walking.request)
}

/// Number and counts, and where both walks end if neither is refused.
pub fn line(walks: &Walks) -> String {
    let ends: String = walks.found.iter().flatten().map(end).collect();
    format!("{} {} {}{ends}", walks.number, walks.steps[0], walks.steps[1])
}

fn end(found: &Found) -> String {
    let (directory, slash) = (found.directory, u8::from(found.slash));
    match found.existing {
        Some(existing) => format!(" {directory} {} {} {slash}", existing.slot, existing.inode),
        None => format!(" {directory} {NONE} {NONE} {slash} {} {}", found.name.len(), checksum(&found.name)),
    }
}
