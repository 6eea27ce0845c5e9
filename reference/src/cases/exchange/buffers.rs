//! Plan buffers of every length under every answer that flags give.

use super::{flagged, planned, refused, BETWEEN, EXCHANGE, NO_REPLACE, WITHIN};
use crate::cases::rename::{case, RenameCase, RenameCases};
use crate::cases::trees::for_renames::rename_tree;
use crate::model::numbers::{BUFFER_TOO_SHORT, EEXIST, EINVAL, ENOENT};
use crate::model::plan::PLAN_LEN;
use crate::vectors::Buffer;

const LENGTHS: [u16; 7] = [0, 72, 647, 648, 649, 700, 1024];
const FILLS: [u8; 5] = [0, 255, 1, 85, 170];

pub fn cases() -> RenameCases {
    let tree = rename_tree();
    let answers = [
        (EXCHANGE, "/w/q/file", planned(BETWEEN, [3, 3])),
        (EXCHANGE, "/w/p/s", planned(WITHIN, [3, 3])),
        (EXCHANGE, "/w/q/pf", planned(0, [3, 3])),
        (EXCHANGE, "/w/q/new", refused(ENOENT, [3, 3])),
        (EXCHANGE, "/w/p", refused(EINVAL, [3, 2])),
        (NO_REPLACE, "/w/q/file", refused(EEXIST, [3, 3])),
        (NO_REPLACE, "/w/q/new", planned(7, [3, 3])),
        (3, "/w/q/file", refused(EINVAL, [0, 0])),
    ];
    let mut cases = vec![];
    for (i, (flags, new, told)) in answers.into_iter().enumerate() {
        for (j, len) in LENGTHS.into_iter().enumerate() {
            let is_short = usize::from(len) < PLAN_LEN;
            let told = if is_short { refused(BUFFER_TOO_SHORT, [0, 0]) } else { told };
            let buffer = Some(Buffer { len, fill: FILLS[(i + j) % FILLS.len()] });
            let case = case("buffers", &tree, flagged(flags, "/w/p/f", new), told);
            cases.push(RenameCase { buffer, ..case });
        }
    }
    cases
}
