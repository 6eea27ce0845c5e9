//! All cases of the check: which trees, which changes of them, and how many.

use crate::cases::check::variants::VARIANT_CLAUSES;
use crate::cases::damage::subject::Subject;
use crate::cases::damage::{random_changes, Clause, JOURNAL_CLAUSES, LAYOUT_CLAUSES, RECORD_CLAUSES};
use crate::cases::random::Random;
use crate::cases::trees::bench::{bench_tree, full_bench_tree};
use crate::cases::trees::builder::Tree;
use crate::cases::trees::generated::{generate, small_aim, DEEP, DEEPEST, FULL, SPARSE};
use crate::cases::trees::samples::samples;
use crate::cases::Collection;
use crate::model::check::{broken_rules, check};
use crate::model::numbers::DONE;
use crate::vectors::edits;

/// How many cases each tree of a kind gives.
#[derive(Clone, Copy)]
struct Quota {
    per_clause: usize,
    /// Whether a case may be stored as a whole image, where it has too many edits.
    whole: bool,
    flips: usize,
    shuffles: usize,
}

const BENCH: Quota = Quota { per_clause: 10, whole: true, flips: 250, shuffles: 150 };
const EVERY_STATE: Quota = Quota { per_clause: 120, whole: true, flips: 400, shuffles: 250 };
const SAMPLE: Quota = Quota { per_clause: 4, whole: true, flips: 60, shuffles: 40 };
const SMALL: Quota = Quota { per_clause: 1, whole: false, flips: 30, shuffles: 30 };
const LARGE: Quota = Quota { per_clause: 2, whole: false, flips: 20, shuffles: 10 };

const SMALL_TREES: u64 = 16;

/// The trees that cases are made from, with their class.
fn trees() -> Vec<(&'static str, Tree, Quota)> {
    let mut trees = vec![("bench trees", bench_tree(), BENCH), ("bench trees", full_bench_tree(), SMALL)];
    trees.extend(samples().into_iter().map(|(name, tree)| {
        let quota = match name {
            "every_state" => EVERY_STATE,
            "vacant" => LARGE,
            _ => SAMPLE,
        };
        ("samples", tree, quota)
    }));
    trees.extend((0..SMALL_TREES).map(|seed| {
        let aim = small_aim(&mut Random::new(seed));
        ("generated trees", generate(aim, seed), SMALL)
    }));
    trees.extend((0..).zip([FULL, SPARSE, DEEPEST, DEEP]).map(|(seed, aim)| {
        let tree = generate(aim, seed);
        ("generated trees", tree, LARGE)
    }));
    trees
}

/// Makes every case. It panics where a case is not answered as its clause says.
pub fn all() -> Collection {
    let mut collection = Collection::default();
    for (seed, (class, tree, quota)) in (0..).zip(trees()) {
        collection.add_tree(class, &Subject::new(tree), quota, &mut Random::new(seed));
    }
    collection
}

impl Collection {
    fn add_tree(&mut self, class: &'static str, subject: &Subject, quota: Quota, random: &mut Random) {
        self.add(class, subject, &subject.bytes);
        assert_eq!(check(&subject.bytes), DONE, "a tree of {class} is not consistent");
        let tables = [
            ("consistent variants", VARIANT_CLAUSES),
            ("broken layout", LAYOUT_CLAUSES),
            ("broken records", RECORD_CLAUSES),
            ("journal record", JOURNAL_CLAUSES),
        ];
        for (class, clauses) in tables {
            for clause in clauses {
                self.add_clause(class, subject, clause, quota, random);
            }
        }
        for _ in 0..quota.flips {
            self.add("random bytes", subject, &random_changes::flip(subject, random));
        }
        for _ in 0..quota.shuffles {
            let image = random_changes::shuffle(subject, random);
            if edits(&subject.bytes, &image).is_some_and(|edits| !edits.is_empty()) {
                self.add("random entries", subject, &image);
            }
        }
    }

    /// Some of the images of a clause, each asserted to be answered as the clause says.
    fn add_clause(
        &mut self,
        class: &'static str,
        subject: &Subject,
        clause: &Clause,
        quota: Quota,
        random: &mut Random,
    ) {
        let mut images = (clause.images)(subject);
        images.retain(|image| quota.whole || edits(&subject.bytes, image).is_some());
        random.shuffle(&mut images);
        for image in images.iter().take(quota.per_clause) {
            assert_eq!(check(image), clause.breaks.answer(), "{class}: {}", clause.name);
            let broken = broken_rules(image);
            assert!(clause.breaks.is_among(&broken), "{class}: {} breaks {broken:?}", clause.name);
            self.add(class, subject, image);
        }
    }

    fn add(&mut self, class: &'static str, subject: &Subject, image: &[u8]) {
        let answer = check(image);
        self.writer.check(&subject.bytes, image);
        self.count(class, answer, answer.to_string());
    }
}
