//! The same parts reached by other paths: what counts is the inode that a path leads to, never its text.

use super::{case, request, RenameCase, RenameCases, Told};
use crate::cases::trees::builder::Tree;
use crate::cases::trees::for_renames::{inode_at, rename_tree};
use crate::model::numbers::{EBUSY, EINVAL, EISDIR, ENOENT, ENOTDIR, ENOTEMPTY};
use crate::model::request::Operand;

type Line = (&'static str, &'static str, u8, u8);

/// A directory into itself, or nearly so.
const INTO_ITSELF: [Line; 40] = [
    ("/w/p/d", "/w/p/d/new", EINVAL, 0),
    ("/w/p/d", "/w/p/d/new/", EINVAL, 0),
    ("/w/p/d", "/w/p/d/e/new", EINVAL, 0),
    ("/w/p/d", "/w/p/d/e/empty", EINVAL, 0),
    ("/w/p/d", "/w/p/d/e/full/new", EINVAL, 0),
    ("/w/p/d", "/w/q/../p/d/new", EINVAL, 0),
    ("/w/p/d", "/w/q/../p/./d//e/new", EINVAL, 0),
    ("/w/p/d", "/w/p/s/../d/e/../new", EINVAL, 0),
    ("/w/p/d", "/ld/new", EINVAL, 0),
    ("/w/p/d", "/ld/e/new", EINVAL, 0),
    ("/w/p/d", "/lp/d/new", EINVAL, 0),
    ("/w/p/d", "/w/q/in/new", EINVAL, 0),
    ("/w/p/d", "/w/q/in/../new", EINVAL, 0),
    ("/lp/d", "/w/p/d/new", EINVAL, 0),
    ("/lp/d", "/ld/new", EINVAL, 0),
    ("/ld/../d", "/w/p/d/e/new", EINVAL, 0),
    ("/ld/../../p", "/w/p/d/e/new", EINVAL, 0),
    ("/w/p", "/w/p/new", EINVAL, 0),
    ("/w/p", "/w/p/d/e/new", EINVAL, 0),
    ("/w", "/w/p/d/e/new", EINVAL, 0),
    ("/w", "/w/q/in/new", EINVAL, 0),
    ("/w/p/d/", "/w/p/d/e/new", EINVAL, 0),
    ("/w/p/d", "/w/p/d/../new", 0, 6),
    ("/w/p/d", "/w/p/d/e/../../new", 0, 6),
    ("/w/p/d", "/ld/../new", 0, 6),
    ("/w/p/d", "/lp/new/", 0, 6),
    ("/w/p/d", "/w/p/dd", 0, 6),
    ("/w/p/d", "/w/p/s/d", 0, 7),
    ("/w/p/d", "/w/p/s/new/", 0, 7),
    ("/w/p/d", "/w/p/d/e/out/new", 0, 7),
    ("/w/p/d", "/w/p/d/e/out/empty", 0, 8),
    ("/w/p/d", "/w/p/d/e/../../s/new", 0, 7),
    ("/w/p/d", "/w/p/d/../../../new", 0, 7),
    ("/w/p/d/e", "/w/p/d/new", 0, 6),
    ("/w/p/d/e", "/w/p/new", 0, 7),
    ("/w/p/d/e", "/w/p/d/empty/new", 0, 7),
    ("/w/p/d/e", "/w/q/in/../new", 0, 6),
    ("/w/p/d/full", "/w/p/d/e/new", 0, 7),
    ("/w/q/in/full", "/w/p/d/new/", 0, 7),
    ("/w/p", "/w/new", 0, 6),
];

/// Onto something that the old name lies in, which is never empty.
const ONTO_AN_ANCESTOR: [Line; 10] = [
    ("/w/p/d/e", "/w/p/d", ENOTEMPTY, 0),
    ("/w/p/d/e", "/w/p", ENOTEMPTY, 0),
    ("/w/p/d/e", "/w", ENOTEMPTY, 0),
    ("/w/p/d/e", "/ld/../d", ENOTEMPTY, 0),
    ("/w/p/d/file", "/w/p/d", EISDIR, 0),
    ("/w/p/d/e/file", "/w/p/d", EISDIR, 0),
    ("/w/p/d/e", "/", EBUSY, 0),
    ("/w/p/d/e", "/w/p/d/..", EINVAL, 0),
    ("/w/p/d/e", "/w/p/d/.", EINVAL, 0),
    ("/w/p/d/file", "/w/p/d/", EISDIR, 0),
];

/// One inode by the same entry and by another, reached by any path.
const ONE_INODE: [Line; 24] = [
    ("/w/p/f", "/w/p/f", 0, 0),
    ("/w/p/f", "/w/p/f2", 0, 0),
    ("/w/p/f", "/w/q/pf", 0, 0),
    ("/w/q/pf", "/w/p/f", 0, 0),
    ("/w/p/f", "/lp/f", 0, 0),
    ("/w/p/f", "/w/q/../p/f2", 0, 0),
    ("/w/p/l", "/w/p/l", 0, 0),
    ("/w/p/l", "/w/p/l2", 0, 0),
    ("/w/p/l", "/w/q/pl", 0, 0),
    ("/w/p/d", "/w/p/d", 0, 0),
    ("/w/p/d", "/w/p/d/", 0, 0),
    ("/w/p/d/", "/lp/d//", 0, 0),
    ("/w/p/d", "/ld/../d", 0, 0),
    ("/w/p/d", "/w/p/d/e/../../d", 0, 0),
    ("/w/p/empty/", "/w/p/empty", 0, 0),
    ("/w/p/mount", "/w/p/mount/", 0, 0),
    ("/w", "/w", 0, 0),
    ("/r/p/f", "/r/q/pf", 0, 0),
    ("/r/p/d", "/r/p/d", 0, 0),
    ("/w/p/f", "/w/q/pf/", ENOTDIR, 0),
    ("/w/p/f/", "/w/q/pf", ENOTDIR, 0),
    ("/w/p/l", "/w/p/l2/", ENOTDIR, 0),
    ("/w/p/f", "/w/p/kept", 0, 7),
    ("/w/p/kept", "/w/p/kept2", 0, 0),
];

/// Final symlinks are moved and replaced themselves; others lead on.
const THROUGH_SYMLINKS: [Line; 20] = [
    ("/ld", "/new", 0, 6),
    ("/ld", "/w/q/new", 0, 7),
    ("/w/p/f", "/ld", 0, 9),
    ("/w/p/f", "/ld/new", 0, 7),
    ("/w/p/f", "/ld/file", 0, 8),
    ("/w/p/f", "/ld/link", 0, 9),
    ("/w/p/f", "/ld/klink", 0, 8),
    ("/w/p/f", "/lp/link", 0, 8),
    ("/w/p/f", "/lp/klink", 0, 7),
    ("/w/p/s", "/ld", ENOTDIR, 0),
    ("/w/p/f", "/ld/", ENOTDIR, 0),
    ("/ld/", "/new", ENOTDIR, 0),
    ("/ld/e", "/lp/new", 0, 7),
    ("/ld/file", "/ld/new", 0, 6),
    ("/ld/file", "/w/p/d/new", 0, 6),
    ("/w/q/in/file", "/ld/e/new", 0, 6),
    ("/ld", "/lp", 0, 8),
    ("/w/q/in", "/w/p/d/e/out", 0, 9),
    ("/ld/nope", "/lp/new", ENOENT, 0),
    ("/ld/file", "/lp/nope/new", ENOENT, 0),
];

/// A slash behind new: only a directory may have it.
const SLASHES: [Line; 12] = [
    ("/w/p/s", "/w/q/new/", 0, 7),
    ("/w/p/s/", "/w/q/new", 0, 7),
    ("/w/p/s//", "/w/q/new//", 0, 7),
    ("/w/p/s", "/w/q/empty/", 0, 8),
    ("/w/p/s", "/w/q/file/", ENOTDIR, 0),
    ("/w/p/f", "/w/q/new/", ENOTDIR, 0),
    ("/w/p/l", "/w/q/new//", ENOTDIR, 0),
    ("/w/p/f/", "/w/q/new", ENOTDIR, 0),
    ("/w/p/f", "/w/q/empty/", EISDIR, 0),
    ("/w/p/f", "/w/q/link/", ENOTDIR, 0),
    ("/w/p/nope/", "/w/q/new", ENOENT, 0),
    ("/w/p/l", "/w/p/new/", ENOTDIR, 0),
];

/// Starts of old and new, each the current directory d or a handle: 1 is open on p, 2 for search on q.
const STARTS: [(u8, &str, u8, &str, u8, u8); 10] = [
    (255, "file", 255, "new", 0, 6),
    (255, "e", 255, "../new", 0, 7),
    (255, "../d", 255, "e/new", EINVAL, 0),
    (1, "d", 255, "new", EINVAL, 0),
    (1, "d", 2, "new/", 0, 7),
    (1, "d", 2, "in/new", EINVAL, 0),
    (1, "f", 2, "pf", 0, 0),
    (2, "pf", 1, "link", 0, 9),
    (2, "../p/f", 1, "new", 0, 6),
    (255, "../f2", 1, "empty", EISDIR, 0),
];

fn case_of(class: &'static str, tree: &Tree, (old, new, number, rows): Line) -> RenameCase {
    case(class, tree, request(old, new), Told { number, rows, steps: None })
}

fn from_starts(tree: &Tree) -> RenameCases {
    let case = |(old_start, old, new_start, new, number, rows): (u8, &str, u8, &str, u8, u8)| {
        let mut request = request("", "");
        request.current = inode_at(tree, "/w/p/d");
        request.old = Operand::new(old_start, old.as_bytes());
        request.new = Operand::new(new_start, new.as_bytes());
        case("starts", tree, request, Told { number, rows, steps: None })
    };
    STARTS.map(case).to_vec()
}

pub fn cases() -> RenameCases {
    let tree = rename_tree();
    let tables: [(&str, &[Line]); 5] = [
        ("into itself", &INTO_ITSELF),
        ("onto an ancestor", &ONTO_AN_ANCESTOR),
        ("one inode", &ONE_INODE),
        ("through symlinks", &THROUGH_SYMLINKS),
        ("trailing slashes", &SLASHES),
    ];
    let lines = tables.iter().flat_map(|(class, lines)| lines.iter().map(|line| case_of(class, &tree, *line)));
    lines.chain(from_starts(&tree)).collect()
}
