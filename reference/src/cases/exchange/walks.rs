//! Walks that are refused, which comes ahead of what either flag asks: the rename's own cases with flags.

use super::{EXCHANGE, NO_REPLACE};
use crate::cases::random::Random;
use crate::cases::rename::refused_walks::{before_the_steps, in_the_walk_tree};
use crate::cases::rename::{RenameCase, RenameCases};
use crate::cases::trees::builder::Tree;
use crate::cases::trees::for_walks::walk_tree;
use crate::model::numbers::DONE;

const REFUSED: &str = "refused walks";

/// How many of the walk tree's are taken.
const IN_THE_WALK_TREE: usize = 160;

/// Both flags in turn. Every other one of the rename tree's is a wrong request, so they change after two.
fn with_flags(turn: usize, mut case: RenameCase) -> RenameCase {
    case.request.flags = [EXCHANGE, NO_REPLACE][turn / 2 % 2];
    RenameCase { class: REFUSED, ..case }
}

/// Beside steps that would refuse the old side, and with requests that are wrong themselves.
pub fn on_the_rename_tree() -> RenameCases {
    before_the_steps().into_iter().enumerate().map(|(turn, case)| with_flags(turn, case)).collect()
}

/// Only those that are told to be refused: what becomes of a whole walk is another matter with flags.
pub fn on_the_walk_tree(random: &mut Random) -> (Tree, RenameCases) {
    let refused = |case: &RenameCase| case.told.is_some_and(|told| told.number != DONE);
    let some = in_the_walk_tree(random).into_iter().filter(refused).step_by(3).take(IN_THE_WALK_TREE);
    (walk_tree(), some.enumerate().map(|(turn, case)| with_flags(turn, case)).collect())
}
