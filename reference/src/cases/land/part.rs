//! All cases of landing: which trees, and how many landings of each kind on them.

use crate::cases::damage::subject::Subject;
use crate::cases::land::{Clause, CLAUSES};
use crate::cases::random::Random;
use crate::cases::trees::bench::{bench_tree, full_bench_tree};
use crate::cases::trees::builder::{Entry, Handle, Tree};
use crate::cases::trees::generated::{generate, small_aim, FULL};
use crate::cases::trees::samples::{every_state, many_names, minimal};
use crate::cases::Collection;
use crate::model::land::land;
use crate::vectors::{checksum, Landing};

const SMALL_TREES: u64 = 4;

/// The smallest tree with free records: sections may be empty.
fn bare(entries: usize, texts: usize, handles: usize) -> Tree {
    Tree {
        entries: vec![Entry::default(); entries],
        texts: vec![vec![]; texts],
        handles: vec![Handle::default(); handles],
        ..minimal()
    }
}

/// The trees, each with the number of cases that a clause makes of it.
fn trees() -> Vec<(Tree, usize)> {
    let mut trees = vec![(bench_tree(), 28), (full_bench_tree(), 4), (every_state(), 28), (many_names(), 6)];
    let counts = [(0, 0, 0), (3, 0, 0), (0, 2, 0), (0, 0, 5), (2, 0, 4), (2, 1, 0)];
    trees.extend(counts.map(|(entries, texts, handles)| (bare(entries, texts, handles), 5)));
    trees.extend((0..SMALL_TREES).map(|seed| (generate(small_aim(&mut Random::new(100 + seed)), seed), 4)));
    trees.push((generate(FULL, 1), 16));
    trees
}

/// Makes every case. It panics where a case is not answered as its clause says.
pub fn all() -> Collection {
    let mut collection = Collection::default();
    for (seed, (tree, quota)) in (0..).zip(trees()) {
        let subject = Subject::new(tree);
        let mut random = Random::new(seed);
        for clause in CLAUSES {
            collection.add_landings(&subject, clause, quota, &mut random);
        }
    }
    collection
}

impl Collection {
    fn add_landings(&mut self, subject: &Subject, clause: &Clause, quota: usize, random: &mut Random) {
        let mut landings = (clause.landings)(subject, random);
        random.shuffle(&mut landings);
        for landing in landings.iter().take(quota) {
            let (number, line) = answer(landing);
            assert_eq!(number, clause.number.unwrap_or(number), "{}: {}", clause.class, clause.name);
            self.writer.land(&subject.bytes, landing);
            self.count(clause.class, number, line);
        }
    }
}

/// The number, and the line with the image's checksum.
pub fn answer(landing: &Landing) -> (u8, String) {
    let mut image = landing.image.clone();
    let number = land(&mut image, &landing.plan, landing.row);
    (number, format!("{number} {}", checksum(&image)))
}
