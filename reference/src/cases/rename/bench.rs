//! The bench trees with the renames that the rules' own examples have.

use super::{case, request, RenameCase, RenameCases, Told};
use crate::cases::trees::bench::full_bench_tree;
use crate::cases::trees::builder::Tree;
use crate::model::numbers::{EACCES, EBADF, EBUSY, EINVAL, EISDIR, ENOENT, ENOSPC, ENOTDIR, ENOTEMPTY};
use crate::model::permission::Credentials;

const CLASS: &str = "bench tree";

type Line = (&'static str, &'static str, Told);

const fn told(number: u8, rows: u8, steps: [u16; 2]) -> Told {
    Told { number, rows, steps: Some(steps) }
}

/// Old and new; then number, rows and counts for the owner.
const LINES: [Line; 15] = [
    ("/a/f", "/a/k", told(0, 6, [2, 2])),
    ("/a/f", "/b/h", told(0, 0, [2, 2])),
    ("/a/f", "/b/h/", told(ENOTDIR, 0, [2, 2])),
    ("/a/f", "/b/g", told(0, 8, [2, 2])),
    ("/a/d", "/b/e/", told(0, 7, [2, 2])),
    ("/a", "/a/d/x", told(EINVAL, 0, [1, 3])),
    ("/a/f", "/a/d", told(EISDIR, 0, [2, 2])),
    ("/b", "/a", told(ENOTEMPTY, 0, [1, 1])),
    ("/s/f", "/k", told(0, 7, [3, 1])),
    ("/s", "/t", told(0, 6, [1, 1])),
    ("/s/", "/t", told(ENOTDIR, 0, [1, 0])),
    ("/a/f", "/k/", told(ENOTDIR, 0, [2, 1])),
    ("/", "/k", told(EBUSY, 0, [0, 0])),
    ("", "/k", told(ENOENT, 0, [0, 0])),
    ("/a/d", "/b/g", told(ENOTDIR, 0, [2, 2])),
];

/// A handle, a path from there, a new path.
const AT_HANDLES: [(u8, &str, &str, Told); 3] =
    [(0, "g", "/g", told(0, 7, [1, 1])), (9, "g", "/g", told(EBADF, 0, [0, 0])), (0, "h", "/a/f", told(0, 0, [1, 2]))];

/// With no free slot, a rename to a name that is missing is refused if nothing else refuses it.
fn on(tree: &Tree, new: &str, line: Told) -> Told {
    let missing = ["/a/k", "/b/e/", "/k", "/t", "/g"].contains(&new);
    match *tree == full_bench_tree() && missing && line.number == 0 {
        true => Told { number: ENOSPC, rows: 0, ..line },
        false => line,
    }
}

/// Every line for the owner and for the superuser as told; for somebody else no directory may be written.
pub fn cases(tree: &Tree) -> RenameCases {
    let plain = LINES.map(|(old, new, line)| (255, old, new, line));
    let lines = plain.into_iter().chain(AT_HANDLES);
    lines.flat_map(|line| [100, 0, 200].map(|id| line_for(tree, id, line))).collect()
}

fn line_for(tree: &Tree, id: u32, (start, old, new, line): (u8, &str, &str, Told)) -> RenameCase {
    let mut request = request(old, new);
    request.who = Credentials::new(id, id);
    request.old.start = start;
    let whole = line.steps.is_some_and(|[old, new]| old != 0 && new != 0) && !new.ends_with("h/");
    let one_inode = line.number == 0 && line.rows == 0;
    let told = match id {
        200 if whole && !one_inode => Told { number: EACCES, rows: 0, ..line },
        _ => on(tree, new, line),
    };
    RenameCase { now: 500, ..case(CLASS, tree, request, told) }
}
