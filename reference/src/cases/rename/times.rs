//! Times of every size, also ones that lie behind those of the tree.

use super::{case, request, RenameCase, RenameCases, Told};
use crate::cases::trees::for_renames::rename_tree;

const TIMES: [u64; 12] = [0, 1, 999, 1000, 1999, 2001, 65_535, 65_536, u32::MAX as u64, 1 << 32, 1 << 63, u64::MAX];

const RENAMES: [(&str, &str, u8); 8] = [
    ("/w/p/f", "/w/p/new", 6),
    ("/w/p/s", "/w/q/new", 7),
    ("/w/p/f", "/w/q/kept", 8),
    ("/w/p/l", "/w/q/klink", 8),
    ("/w/p/l", "/w/q/link", 9),
    ("/w/p/d", "/w/q/empty", 8),
    ("/w/p/d", "/new", 7),
    ("/w/p/f", "/w/q/pf", 0),
];

pub fn cases() -> RenameCases {
    let tree = rename_tree();
    let mut cases = vec![];
    for (old, new, rows) in RENAMES {
        let told = Told { number: 0, rows, steps: None };
        cases.extend(TIMES.map(|now| RenameCase { now, ..case("times", &tree, request(old, new), told) }));
    }
    cases
}
