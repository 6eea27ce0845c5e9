//! Images on the way of an exchange: its journal record, either entry or both, and behind these any of the other rows.

use super::{planned_exchange, EXCHANGE};
use crate::cases::repair::{repaired, RepairCases, NOW};
use crate::cases::trees::bench::bench_tree;
use crate::cases::trees::for_crashes::{crash_tree, NEW, OLD, OWNER};
use crate::explore::PlannedRename;
use crate::model::permission::Credentials;
use crate::model::request::{Operand, Request, CURRENT};

/// The rows of both entries.
const ENTRIES: [usize; 2] = [1, 2];

/// Every exchange of an old and a new name of the crash tree.
pub fn on_the_crash_tree() -> Vec<PlannedRename> {
    let image = crash_tree().encode();
    let operand = |path: &str| Operand::new(CURRENT, path.as_bytes());
    let who = Credentials::new(OWNER, OWNER);
    let request = |old: &str, new: &str| Request {
        who: who.clone(),
        current: 0,
        flags: EXCHANGE,
        old: operand(old),
        new: operand(new),
    };
    let requests = OLD.iter().flat_map(|old| NEW.iter().map(move |new| request(old, new)));
    requests.filter_map(|request| PlannedRename::new(&image, &request, NOW)).collect()
}

/// Four exchanges of different kinds: within one directory and between two, of files, symlinks and directories.
pub fn kinds() -> [PlannedRename; 4] {
    let tree = crash_tree();
    [("/p/f", "/q/x"), ("/p/d", "/q/y"), ("/p/d", "/q/e"), ("/p/m", "/p/e")]
        .map(|paths| planned_exchange(&tree, OWNER, paths, NOW))
}

/// Every set of the rows, in an order in which each differs from the one before by one row, so that most are stored as
/// edits.
fn sets(rows: std::ops::Range<usize>) -> Vec<Vec<usize>> {
    let chosen = |step: usize| rows.clone().filter(|row| (step ^ step >> 1) & 1 << (row - rows.start) != 0).collect();
    (0..1 << rows.len()).map(chosen).collect()
}

/// Rows that may have landed when a crash comes, with the journal record among them.
pub fn ways(planned: &PlannedRename) -> Vec<Vec<usize>> {
    let entries = [vec![], vec![1], vec![2]];
    let behind = sets(3..usize::from(planned.rows) - 1).into_iter().map(|rest| [&ENTRIES[..], &rest].concat());
    entries.into_iter().chain(behind).map(|rows| [&[0][..], &rows].concat()).collect()
}

/// A repair writes every row of the exchange but the first.
fn finished(class: &'static str, planned: &PlannedRename, ways: Vec<Vec<usize>>) -> RepairCases {
    ways.into_iter().map(|rows| repaired(class, planned.after(rows), planned.rows - 1)).collect()
}

/// Also rows whose turn has not come: what repair writes does not hang on them.
fn any_rows(planned: &PlannedRename) -> RepairCases {
    let sets = sets(1..usize::from(planned.rows) - 1).into_iter().map(|rows| [&[0][..], &rows].concat());
    finished("any rows of an exchange", planned, sets.collect())
}

/// Nothing is left to do where the journal record has not landed, or has been cleared.
fn at_rest(planned: &PlannedRename) -> RepairCases {
    [&planned.before, &planned.finished].map(|image| repaired("at rest", image.clone(), 0)).to_vec()
}

pub fn cases() -> RepairCases {
    let exchanges = on_the_crash_tree();
    let on_the_way = exchanges.iter().flat_map(|planned| finished("on the way", planned, ways(planned)));
    let kinds = kinds();
    on_the_way.chain(kinds.iter().flat_map(any_rows)).chain(kinds.iter().flat_map(at_rest)).collect()
}

/// The bench tree's own: a symlink, files and directories, between two parents and within one.
pub fn on_the_bench() -> RepairCases {
    let tree = bench_tree();
    let pairs = [("/a/f", "/b/g"), ("/s", "/b"), ("/a/d", "/b/g"), ("/a/d", "/a/f"), ("/b/h", "/s"), ("/a", "/b")];
    let exchanges = pairs.map(|paths| planned_exchange(&tree, 100, paths, NOW));
    exchanges.iter().flat_map(|planned| finished("on the way", planned, ways(planned))).collect()
}
