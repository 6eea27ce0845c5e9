//! All cases of the rename: which images, and how many requests of each kind on them.

use crate::cases::random::Random;
use crate::cases::rename::{
    bench, buffers, damaged_images, limits, misleading_paths, open_inodes, permissions, random_renames, refused_walks,
    slots, steps, times, RenameCase, RenameCases, Told,
};
use crate::cases::trees::bench::{bench_tree, full_bench_tree};
use crate::cases::trees::builder::Tree;
use crate::cases::trees::for_renames::rename_tree;
use crate::cases::trees::for_walks::walk_tree;
use crate::cases::trees::generated::{generate, small_aim, FULL, SPARSE};
use crate::cases::trees::samples::{every_state, many_names};
use crate::cases::{walk, Collection};
use crate::model::rename::{rename, Answer};
use crate::vectors::{checksum, Buffer, Renaming, Writer};

const SMALL_TREES: u64 = 10;

/// Buffers that are long enough, for cases that ask for no other.
const LENGTHS: [u16; 5] = [648, 649, 648, 700, 1024];

/// Makes every case. It panics where a case is not answered as its table tells.
pub fn all() -> Collection {
    let mut collection = Collection::default();
    let random = &mut Random::new(8);
    for tree in [bench_tree(), full_bench_tree()] {
        collection.add_renames(&tree, bench::cases(&tree));
    }
    collection.add_renames(&bench_tree(), slots::cases());
    collection.add_renames(&bench_tree(), damaged_images::cases(random));
    let on_the_rename_tree = [
        steps::cases(random),
        misleading_paths::cases(),
        permissions::cases(),
        open_inodes::cases(),
        times::cases(),
        refused_walks::before_the_steps(),
        buffers::cases(random),
    ];
    collection.add_renames(&rename_tree(), on_the_rename_tree.concat());
    collection.add_renames(&many_names(), limits::names());
    collection.add_renames(&limits::wide(), limits::subdirectories());
    collection.add_renames(&walk_tree(), refused_walks::in_the_walk_tree(random));
    for (tree, count) in walkable_trees(random) {
        collection.add_renames(&tree, random_renames::cases(&tree, count, random));
    }
    collection.add_full_tree(random);
    collection
}

/// Trees for random renames, small to full size, each with a number of requests.
fn walkable_trees(random: &mut Random) -> Vec<(Tree, usize)> {
    let mut trees = vec![(every_state(), 130)];
    trees.extend((0..SMALL_TREES).map(|seed| (generate(small_aim(&mut Random::new(300 + seed)), seed), 70)));
    trees.push((generate(SPARSE, 4), 130));
    trees.iter_mut().for_each(|(tree, _)| walk::random_walks::set_modes_and_texts(tree, random));
    trees
}

impl Collection {
    /// Every record in use: nothing can be renamed to a name that is free, until some name goes.
    fn add_full_tree(&mut self, random: &mut Random) {
        let mut tree = generate(FULL, 3);
        walk::random_walks::set_modes_and_texts(&mut tree, random);
        slots::arrange(&mut tree);
        self.add_renames(&tree, random_renames::cases(&tree, 180, random));
        self.add_renames(&tree, slots::in_a_full_tree(&tree, random));
    }

    fn add_renames(&mut self, home: &Tree, cases: RenameCases) {
        self.add_played(home, cases, Writer::rename);
    }

    /// Cases on images that are near a tree's, in the form in which they are to be stored.
    pub fn add_played(&mut self, home: &Tree, cases: RenameCases, store: fn(&mut Writer, &[u8], &Renaming)) {
        let home = home.encode();
        for case in cases {
            let class = case.class;
            let (renaming, number, line) = played(case, self.lines.len());
            store(&mut self.writer, &home, &renaming);
            self.count(class, number, line);
        }
    }
}

/// What is stored of a case, its number and its line. Where it asks for no buffer, some take turns. It panics where the
/// case is not answered as its table tells.
fn played(case: RenameCase, turn: usize) -> (Renaming, u8, String) {
    let any = Buffer { len: LENGTHS[turn % LENGTHS.len()], fill: (37 * turn) as u8 };
    let buffer = case.buffer.unwrap_or(any);
    let renaming = Renaming { image: case.image, buffer, request: case.request, now: case.now };
    let (answer, line) = answer(&renaming);
    if let Some(Told { number, rows, steps }) = case.told {
        let told = Answer { number, rows, steps: steps.unwrap_or(answer.steps) };
        assert_eq!(answer, told, "{}: {:?}", case.class, renaming.request);
    }
    (renaming, answer.number, line)
}

/// The answer, and the line with the checksum of the buffer after it.
pub fn answer(renaming: &Renaming) -> (Answer, String) {
    let mut plan = renaming.buffer.bytes();
    let answer = rename(&renaming.image, &renaming.request, renaming.now, &mut plan);
    let Answer { number, rows, steps: [old, new] } = answer;
    (answer, format!("{number} {rows} {old} {new} {}", checksum(&plan)))
}
