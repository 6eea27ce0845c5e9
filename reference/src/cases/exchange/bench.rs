//! The bench trees, every name against every other, with each flag.

use super::{refused, EXCHANGE, NO_REPLACE};
use crate::cases::rename::{case, components, request, RenameCase, RenameCases, Told};
use crate::cases::trees::builder::Tree;
use crate::cases::trees::for_renames::inode_at;
use crate::model::numbers::{DONE, EACCES, EEXIST, EINVAL, ENOENT};
use crate::model::permission::Credentials;
use crate::model::request::Request;

const CLASS: &str = "bench tree";

const NAMES: [&str; 7] = ["/a", "/b", "/s", "/a/f", "/a/d", "/b/g", "/b/h"];
const MISSING: [&str; 3] = ["/k", "/a/k", "/b/e/"];

fn holder(path: &str) -> &str {
    path.rsplit_once('/').map_or("", |(holder, _)| holder)
}

/// What an exchange by the owner answers: no two of the names are on different file systems, and all may be written.
fn exchanged(tree: &Tree, old: &str, new: &str) -> (u8, u8) {
    let lies_in = |below: &str, above: &str| below.starts_with(&format!("{above}/"));
    if inode_at(tree, old) == inode_at(tree, new) {
        (DONE, 0)
    } else if lies_in(old, new) || lies_in(new, old) {
        (EINVAL, 0)
    } else {
        (DONE, if holder(old) == holder(new) { super::WITHIN } else { super::BETWEEN })
    }
}

fn of_user(tree: &Tree, user: u32, flags: u32, (old, new): (&str, &str), told: (u8, u8)) -> RenameCase {
    let who = Credentials::new(user, user);
    let request = Request { who, flags, ..request(old, new) };
    let steps = Some([components(old), components(new)]);
    case(CLASS, tree, request, Told { number: told.0, rows: told.1, steps })
}

pub fn cases(tree: &Tree) -> RenameCases {
    let mut cases = vec![];
    for (old, new) in NAMES.iter().flat_map(|old| NAMES.iter().map(move |new| (*old, *new))) {
        let told = exchanged(tree, old, new);
        cases.push(of_user(tree, 100, EXCHANGE, (old, new), told));
        cases.push(of_user(tree, 100, NO_REPLACE, (old, new), (EEXIST, 0)));
        // Somebody else may write no directory of the tree.
        let stranger = if told == (DONE, 0) { told } else { (EACCES, 0) };
        cases.push(of_user(tree, 200, EXCHANGE, (old, new), stranger));
    }
    for (old, new) in NAMES.iter().zip(MISSING.iter().cycle()) {
        cases.push(of_user(tree, 100, EXCHANGE, (old, new), (ENOENT, 0)));
    }
    let both = refused(EINVAL, [0, 0]);
    cases.extend(NAMES.map(|old| case(CLASS, tree, Request { flags: 3, ..request(old, "/b/g") }, both)));
    cases
}
