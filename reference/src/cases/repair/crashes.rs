//! Images on the way of a rename: its journal record alone, or its new name and any of the rows behind it.

use super::{repaired, request, RepairCases, NOW};
use crate::cases::trees::bench::{bench_tree, full_bench_tree};
use crate::cases::trees::builder::Tree;
use crate::cases::trees::for_crashes::{crash_tree, NEW, OLD};
use crate::explore::PlannedRename;

const BENCH: [&str; 9] = ["/a", "/b", "/s", "/a/f", "/a/d", "/b/g", "/b/h", "/k", "/b/k"];

fn renames(tree: &Tree, old: &[&str], new: &[&str]) -> Vec<PlannedRename> {
    let image = tree.encode();
    let pairs = old.iter().flat_map(|old| new.iter().map(move |new| request(old, new)));
    pairs.filter_map(|request| PlannedRename::new(&image, &request, NOW)).collect()
}

fn taken_back(renames: &[PlannedRename]) -> RepairCases {
    renames.iter().map(|planned| repaired("taken back", planned.after([0]), 1)).collect()
}

/// Every set of the rows behind the new name, in an order in which each differs from the one before by one row, so
/// that most are stored as edits. Inodes that go, the longest edits of all, change the least often.
fn finished(planned: &PlannedRename) -> RepairCases {
    let rest = 2..usize::from(planned.rows) - 1;
    let image = |step: usize| {
        let chosen = step ^ step >> 1;
        planned.after([0, 1].into_iter().chain(rest.clone().filter(|row| chosen & 1 << (row - 2) != 0)))
    };
    (0..1 << rest.len()).map(|step| repaired("finished", image(step), planned.rows - 2)).collect()
}

/// Every shape of a rename, on the crash tree.
pub fn on_the_crash_tree() -> RepairCases {
    let renames = renames(&crash_tree(), &OLD, &NEW);
    taken_back(&renames).into_iter().chain(renames.iter().flat_map(finished)).collect()
}

/// The rules' own examples and others, with or without a free slot; those with few rows are finished too.
pub fn on_the_bench() -> RepairCases {
    let mut cases = vec![];
    for tree in [bench_tree(), full_bench_tree()] {
        let renames = renames(&tree, &BENCH, &BENCH);
        cases.extend(taken_back(&renames));
        cases.extend(renames.iter().map(|planned| repaired("finished", planned.after([0, 1]), planned.rows - 2)));
    }
    cases
}
