//! Random renames with random lists of groups, and the same ones without.

use super::{with, MOST};
use crate::cases::random::Random;
use crate::cases::rename::random_renames::{stopped_by, two_paths};
use crate::cases::rename::{RenameCase, RenameCases, NOW};
use crate::cases::trees::builder::Tree;
use crate::cases::walk::random_walks::set_modes_and_texts;
use crate::model::numbers::DONE;
use crate::model::plan::PLAN_LEN;
use crate::model::rename::rename;
use crate::model::request::Request;
use crate::model::walk::PATH_MAX;

/// Few numbers, some of them those of the trees' owners and groups, so that matches are frequent.
const USERS: [u32; 6] = [0, 100, 200, 300, 300, 400];
const GROUPS: [u32; 6] = [0, 50, 60, 300, 70, 80];

/// Modes in which it counts who is in the group.
const MODES: [u16; 8] = [0o770, 0o777, 0o707, 0o1770, 0o731, 0o713, 0o075, 0o757];

/// Up to two more than are allowed.
const LONGEST: usize = MOST + 2;

/// Every other request is taken as it comes. For one in four tries are made until the list decides, and for one in four
/// until it also lets a rename go through.
const TRIES: usize = 400;

fn list(random: &mut Random) -> Vec<u32> {
    let few: Vec<u32> = (0..1 + random.below(3)).map(|_| *random.pick(&GROUPS)).collect();
    (0..random.below(LONGEST + 1)).map(|_| *random.pick(&few)).collect()
}

/// A tree with modes, owners, groups and texts for these requests.
pub fn arranged(mut tree: Tree, random: &mut Random) -> Tree {
    set_modes_and_texts(&mut tree, random);
    for directory in tree.directories() {
        if random.one_in(2) {
            tree.inodes[usize::from(directory)].mode = *random.pick(&MODES);
        }
    }
    tree
}

/// A request on the tree with up to three modes changed.
fn attempt(tree: &Tree, random: &mut Random) -> RenameCase {
    let mut tree = tree.clone();
    let directories = tree.directories();
    let current = *random.pick(&directories);
    for _ in 0..random.below(4) {
        tree.inodes[usize::from(*random.pick(&directories))].mode = *random.pick(&MODES);
    }
    let (old, new) = two_paths(&tree, current, 3, random);
    let who = with(*random.pick(&USERS), *random.pick(&GROUPS), &list(random));
    let request = Request { who, current, flags: 0, old, new };
    RenameCase { class: "random lists", image: tree.encode(), buffer: None, request, now: NOW, told: None }
}

fn without_list(case: &RenameCase) -> RenameCase {
    let mut without = RenameCase { class: "random, no list", ..case.clone() };
    without.request.who.further.clear();
    without
}

/// The number and both counts, as far as the choice goes by them.
fn answer(case: &RenameCase) -> (u8, [u16; 2]) {
    let steps = rename(&case.image, &case.request, case.now, &mut [0; PLAN_LEN]).steps;
    (stopped_by(case).map_or(DONE, |refusal| refusal.number), steps)
}

fn list_decides(case: &RenameCase) -> bool {
    case.request.who.further.len() <= MOST && answer(case) != answer(&without_list(case))
}

fn list_lets_rename(case: &RenameCase) -> bool {
    list_decides(case) && stopped_by(case).is_none()
}

/// Paths are stored whole, so none is let be longer than any that can be walked.
fn is_short(case: &RenameCase) -> bool {
    case.request.old.path.len().max(case.request.new.path.len()) <= PATH_MAX
}

/// Each request with its list, and then without.
pub fn cases(tree: &Tree, count: usize, random: &mut Random) -> RenameCases {
    let mut cases = vec![];
    for turn in 0..count {
        let mut attempts = std::iter::repeat_with(|| attempt(tree, random)).filter(is_short);
        let any = attempts.next();
        let wanted = match turn % 4 {
            1 => attempts.take(TRIES).find(list_decides),
            3 => attempts.take(TRIES).find(list_lets_rename),
            _ => None,
        };
        if let Some(case) = wanted.or(any) {
            cases.extend([case.clone(), without_list(&case)]);
        }
    }
    cases
}
