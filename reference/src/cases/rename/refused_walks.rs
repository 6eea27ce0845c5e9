//! Walks that are refused, and requests that are wrong: both come before the steps of a rename.

use super::{case, request, RenameCase, RenameCases, Told, NOW};
use crate::cases::random::Random;
use crate::cases::trees::builder::Tree;
use crate::cases::trees::for_renames::{inode_at, rename_tree, rename_tree_with};
use crate::cases::walk::{few_are_followed, requests, single_paths, WalkCase};
use crate::model::numbers::{BAD_REQUEST, EBADF, EBUSY, EINVAL, ENAMETOOLONG, ENOENT, ENOTDIR, EPERM};
use crate::model::permission::Credentials;
use crate::model::request::Operand;

/// How many of the walk's own cases are taken, by what becomes of them.
const REFUSED: usize = 420;
const WHOLE: usize = 60;
const WRONG: usize = 100;
const PAIRS: usize = 120;

/// A walk case as a rename. Where both walks are whole, what the rename makes of them is for the model to say.
pub fn renamed(class: &'static str, case: WalkCase) -> RenameCase {
    let refused = case.told.filter(|told| told.number != 0);
    let told = refused.map(|told| Told { number: told.number, rows: 0, steps: Some(told.steps) });
    RenameCase { class, image: case.tree.encode(), buffer: None, request: case.request, now: NOW, told }
}

/// But for names that are not portable: these cases were taken before that was asked, and stay what they are.
fn is_refused(case: &WalkCase) -> bool {
    case.told.is_some_and(|told| told.number != 0 && told.number != EPERM)
}

/// Refused, or so at the time when these were chosen.
fn was_refused(case: &WalkCase) -> bool {
    is_refused(case) || !few_are_followed(&case.tree.encode(), &case.request)
}

/// What was chosen as a refused walk may be whole since then.
fn class_of(chosen_as: &'static str, case: &WalkCase) -> &'static str {
    match chosen_as {
        "refused walks" if !is_refused(case) => "whole walks",
        _ => chosen_as,
    }
}

fn is_wrong(case: &WalkCase) -> bool {
    case.told.is_some_and(|told| told.number == BAD_REQUEST)
}

/// Those of the walk's own cases that lead through the walk tree.
pub fn in_the_walk_tree(random: &mut Random) -> RenameCases {
    let (refused, whole) = single_paths::single().into_iter().partition(was_refused);
    let pairs = single_paths::pairs(3 * PAIRS, random).into_iter().filter(was_refused).collect();
    let wrong = requests::cases().into_iter().filter(is_wrong).collect();
    let tables: [(&str, usize, Vec<WalkCase>); 4] = [
        ("refused walks", REFUSED, refused),
        ("whole walks", WHOLE, whole),
        ("pairs of paths", PAIRS, pairs),
        ("wrong requests", WRONG, wrong),
    ];
    let mut some = |(class, count, mut cases): (&'static str, usize, Vec<WalkCase>)| -> RenameCases {
        random.shuffle(&mut cases);
        cases.into_iter().take(count).map(|case| renamed(class_of(class, &case), case)).collect()
    };
    tables.into_iter().flat_map(&mut some).collect()
}

/// Paths of the rename tree that are refused as new, with their numbers.
fn refused_as_new() -> Vec<(Operand, u8)> {
    let at = |start: u8, path: &str| Operand::new(start, path.as_bytes());
    vec![
        (at(255, ""), ENOENT),
        (at(255, &"/".repeat(256)), ENAMETOOLONG),
        (at(0, "new"), EBADF),
        (at(4, "new"), EBADF),
        (at(255, "//"), EBUSY),
        (at(255, "/w/q/file/new"), ENOTDIR),
        (at(255, &format!("/w/q/{}", "n".repeat(25))), ENAMETOOLONG),
        (at(255, "/w/q/.."), EINVAL),
        (at(255, "/w/q/nope/new"), ENOENT),
        (at(255, "/w/q/file/"), ENOTDIR),
        (at(255, "/w/q/klink/"), ENOTDIR),
    ]
}

/// Trees and old paths for which a step that asks old's side alone would refuse: read-only, a mount point, a
/// parent that may not be written, a sticky one; and none.
fn old_sides() -> Vec<(Tree, &'static str)> {
    vec![
        (rename_tree(), "/r/p/f"),
        (rename_tree(), "/w/p/m"),
        (rename_tree_with("/w/p", 0o555), "/w/p/f"),
        (rename_tree_with("/w/p", 0o1777), "/w/p/f"),
        (rename_tree(), "/w/p/f"),
    ]
}

/// New's walk is refused before any step is asked; and a wrong request before old's walk.
pub fn before_the_steps() -> RenameCases {
    let mut cases = vec![];
    for (tree, old) in old_sides() {
        for (new, number) in refused_as_new() {
            let mut request = request(old, "");
            request.who = Credentials::new(300, 300);
            request.new = new;
            cases.push(case("new's walk before the steps", &tree, request.clone(), Told::refused(number)));
            request.current = inode_at(&tree, "/w/p/f");
            cases.push(case("wrong requests", &tree, request, Told::refused(BAD_REQUEST)));
        }
    }
    cases
}
