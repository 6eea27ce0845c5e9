//! Images whose journal record is clear: there is nothing to do, or nothing that repair could do.

use super::{repaired, told, RepairCases};
use crate::cases::damage::subject::Subject;
use crate::cases::damage::{Clause, LAYOUT_CLAUSES, RECORD_CLAUSES};
use crate::cases::random::Random;
use crate::cases::trees::bench::full_bench_tree;
use crate::cases::trees::generated::{generate, small_aim};
use crate::cases::trees::samples::samples;
use crate::model::numbers::INCONSISTENT;
use crate::vectors::edits;

const CLASS: &str = "nothing to do";

const OF_A_CLAUSE: usize = 3;

/// Samples but the one of full size, and small trees.
pub fn consistent() -> RepairCases {
    let mut trees: Vec<_> =
        samples().into_iter().map(|(_, tree)| tree).filter(|tree| tree.inodes.len() < 512).collect();
    trees.push(full_bench_tree());
    trees.extend((0..8).map(|seed| generate(small_aim(&mut Random::new(400 + seed)), seed)));
    trees.iter().map(|tree| repaired(CLASS, tree.encode(), 0)).collect()
}

/// Some images of a clause that are near the subject's.
pub fn some_of(clause: &Clause, subject: &Subject, count: usize, random: &mut Random) -> Vec<Vec<u8>> {
    let mut images = (clause.images)(subject);
    images.retain(|image| edits(&subject.bytes, image).is_some());
    random.shuffle(&mut images);
    images.truncate(count);
    images
}

/// The check's own damages, of the layout and of the records.
pub fn damaged(subject: &Subject, random: &mut Random) -> RepairCases {
    let mut cases = vec![];
    for (class, clauses) in [("broken layout", LAYOUT_CLAUSES), ("broken records", RECORD_CLAUSES)] {
        let images = clauses.iter().flat_map(|clause| some_of(clause, subject, OF_A_CLAUSE, random));
        cases.extend(images.map(|image| told(class, image, INCONSISTENT, 0)));
    }
    cases
}
