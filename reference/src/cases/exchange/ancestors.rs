//! Step 7 of an exchange: neither inode may be the other's directory or above it, however the paths look.

use super::{flagged, planned, refused, BETWEEN, EXCHANGE, WITHIN};
use crate::cases::rename::{case, components, RenameCases};
use crate::cases::trees::for_renames::{rename_tree, rename_tree_with};
use crate::model::numbers::{EINVAL, ENOENT, ENOTDIR, EXDEV};

/// An inode, and one that lies in it or below it; with the counts of both walks.
const BELOW: [(&str, u16, &str, u16); 16] = [
    ("/w/p/d", 3, "/w/p/d/e", 4),
    ("/w/p/d", 3, "/w/p/d/file", 4),
    ("/w/p/d", 3, "/w/p/d/klink", 4),
    ("/w/p/d", 3, "/w/p/d/full", 4),
    ("/w/p/d", 3, "/w/p/d/e/file", 5),
    ("/w/p/d", 3, "/w/p/d/e/empty", 5),
    ("/w/p/d/", 3, "/w/p/d/e/full/", 5),
    ("/w/p", 2, "/w/p/d/e/link", 5),
    ("/w/p", 2, "/w/p/d/wide/n3", 5),
    ("/w", 1, "/w/p/d/wide/file", 5),
    ("/w", 1, "/w/q", 2),
    // Where the text does not show it: by dots and by symlinks.
    ("/w/q/../p/d", 5, "/w/p/d/e", 4),
    ("/w/p/d", 3, "/w/q/in/file", 8),
    ("/w/p/d", 3, "/ld/e", 5),
    ("/lp/d", 4, "/ld/e/file", 6),
    ("/w/q/in/../../d", 10, "/w/p/d/e/../file", 6),
];

/// Neither is above the other, though one lies deeper or the text of a path seems to say so; with the counts.
const APART: [(&str, u16, &str, u16, u8); 14] = [
    ("/w/p/d", 3, "/w/p/s", 3, WITHIN),
    ("/w/p/d", 3, "/w/p/full", 3, WITHIN),
    ("/w/p", 2, "/w/q", 2, WITHIN),
    ("/w/p", 2, "/w/q/full", 3, BETWEEN),
    ("/w/q", 2, "/w/p/d", 3, BETWEEN),
    ("/w/q", 2, "/w/p/d/e/empty", 5, BETWEEN),
    ("/w/p/d/e", 4, "/w/q/full", 3, BETWEEN),
    ("/w/p/d/e/file", 5, "/w/p/s", 3, BETWEEN),
    ("/w/p/d/e/../file", 6, "/w/p/d/e/file", 5, BETWEEN),
    ("/w/p/d/../s", 5, "/w/p/d", 3, WITHIN),
    ("/ld", 1, "/w/p/d/e", 4, BETWEEN),
    ("/w/q/in", 3, "/w/p/d/e/file", 5, BETWEEN),
    ("/w/p/d/e/out/full", 10, "/w/p/d", 3, BETWEEN),
    ("/w/p/d/e/out", 5, "/w/q", 2, BETWEEN),
];

/// Each either way: first moved is above into, then replaced above from.
fn below() -> RenameCases {
    let tree = rename_tree();
    let of = |(above, above_steps, below, below_steps): (&str, u16, &str, u16)| {
        [(above, below, [above_steps, below_steps]), (below, above, [below_steps, above_steps])].map(
            |(old, new, steps)| case("above the other", &tree, flagged(EXCHANGE, old, new), refused(EINVAL, steps)),
        )
    };
    BELOW.into_iter().flat_map(of).collect()
}

fn apart() -> RenameCases {
    let tree = rename_tree();
    let of = |(one, one_steps, other, other_steps, rows): (&str, u16, &str, u16, u8)| {
        [(one, other, [one_steps, other_steps]), (other, one, [other_steps, one_steps])]
            .map(|(old, new, steps)| case("beside the other", &tree, flagged(EXCHANGE, old, new), planned(rows, steps)))
    };
    APART.into_iter().flat_map(of).collect()
}

/// Above it on another file system, which step 3 refuses first.
fn on_another_file_system() -> RenameCases {
    let tree = rename_tree();
    let lines = [("/w/p", "/w/p/m/e", [2, 4]), ("/w/p/m/e", "/w/p", [4, 2]), ("/w", "/w/p/m/e", [1, 4])];
    let told = |steps| refused(EXDEV, steps);
    lines.map(|(old, new, steps)| case("above the other", &tree, flagged(EXCHANGE, old, new), told(steps))).to_vec()
}

/// Ahead of step 9: one of the two may not be written.
fn ahead_of_step_9() -> RenameCases {
    let lines = [
        ("/w/p/d", "/w/p/d/e", "/w/p/d/e"),
        ("/w/p/d", "/w/p/d/e/full", "/w/p/d/e/full"),
        ("/w/p/d/e", "/w/p/d", "/w/p/d/e"),
        ("/w/p/d/e", "/w/p", "/w/p/d/e"),
        ("/w/p/d/e/full", "/w/p/d", "/w/p/d/e/full"),
    ];
    let of = |(old, new, denied): (&str, &str, &str)| {
        let told = refused(EINVAL, [components(old), components(new)]);
        case("above the other", &rename_tree_with(denied, 0o555), flagged(EXCHANGE, old, new), told)
    };
    lines.map(of).to_vec()
}

/// A final symlink is exchanged itself, and a slash behind it is refused by the walk.
fn final_symlinks() -> RenameCases {
    let tree = rename_tree();
    let lines = [
        ("/w/p/d", "/ld/", refused(ENOTDIR, [3, 1])),
        ("/ld/", "/w/p/d", refused(ENOTDIR, [1, 0])),
        ("/w/p/f", "/w/p/l/none", refused(ENOENT, [3, 5])),
        ("/w/p/f", "/w/p/l", planned(WITHIN, [3, 3])),
        ("/w/q/klink", "/w/p/s", planned(BETWEEN, [3, 3])),
    ];
    lines.map(|(old, new, told)| case("final symlinks", &tree, flagged(EXCHANGE, old, new), told)).to_vec()
}

pub fn cases() -> RenameCases {
    [below(), on_another_file_system(), ahead_of_step_9(), apart(), final_symlinks()].concat()
}
