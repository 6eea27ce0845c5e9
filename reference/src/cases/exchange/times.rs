//! Times of an exchange: as given, also where the clock has gone back.

use super::{straight, BETWEEN, EXCHANGE, WITHIN};
use crate::cases::rename::{RenameCase, RenameCases};
use crate::cases::trees::for_renames::rename_tree;
use crate::model::numbers::DONE;

const TIMES: [u64; 8] = [0, 1, 999, 2000, 1 << 16, 1 << 32, 1 << 63, u64::MAX];

pub fn cases() -> RenameCases {
    let tree = rename_tree();
    let exchanges = [
        (("/w/p/f", "/w/q/file"), BETWEEN),
        (("/w/p/d", "/w/q/link"), BETWEEN),
        (("/w/p/s", "/w/q/full"), BETWEEN),
        (("/w/p/d", "/w/p/klink"), WITHIN),
    ];
    let all = exchanges.into_iter().flat_map(|exchange| TIMES.map(|now| (exchange, now)));
    all.map(|((paths, rows), now)| RenameCase { now, ..straight("times", &tree, EXCHANGE, paths, DONE, rows) })
        .collect()
}
