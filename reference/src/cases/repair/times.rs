//! Times of every size in the journal record: they are stored as given, also before those of the image.

use super::{repaired, request, RepairCases};
use crate::cases::trees::for_crashes::crash_tree;
use crate::explore::PlannedRename;

const TIMES: [u64; 12] = [0, 1, 99, 100, 101, 255, 256, 65_535, u32::MAX as u64, 1 << 32, 1 << 63, u64::MAX];

const RENAMES: [(&str, &str); 6] =
    [("/p/f", "/p/new"), ("/p/d", "/q/new"), ("/p/f", "/q/g"), ("/p/l", "/q/m"), ("/p/l", "/q/y"), ("/p/d", "/q/e")];

pub fn cases() -> RepairCases {
    let image = crash_tree().encode();
    let mut cases = vec![];
    for (old, new) in RENAMES {
        for now in TIMES {
            let planned = PlannedRename::new(&image, &request(old, new), now).expect("the rename has rows");
            cases.push(repaired("times", planned.after([0]), 1));
            cases.push(repaired("times", planned.after([0, 1]), planned.rows - 2));
        }
    }
    cases
}
