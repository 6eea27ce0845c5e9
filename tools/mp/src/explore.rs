//! Every image that any permitted order of landing and any power cut can leave of one planned call, with cuts during repair.
//!
//! A state is an image, the rows that wait, and whether the store that decides has landed. From a state one row after
//! another may land, each as soon as no row of a lower group waits; and the power may be cut, which loses the rows that
//! wait, and a repair is planned. All of it is done by the library's own jobs.

pub mod breach;
pub mod dot;
pub mod names;
pub mod page;
pub mod report;
pub mod rows;
pub mod search;
pub mod unordered;

#[cfg(test)]
mod tests;

use crate::image::{operation, Journal};
use mirepillar::{Number, Plan, Repaired, PLAN_ROWS};
use names::Names;
use std::collections::HashMap;

/// The jobs of a store under test. They are the library's, but for tests that plant a mistake.
#[derive(Clone, Copy)]
pub struct Jobs {
    pub check: fn(&[u8]) -> Number,
    pub land: fn(&mut [u8], &[u8], u64) -> Number,
    pub repair: fn(&[u8], &mut [u8], &mut [u8]) -> Repaired,
}

pub const PROVED: Jobs = Jobs { check: mirepillar::check, land: mirepillar::land, repair: mirepillar::repair };

/// A planned call, before any of its rows has landed.
#[derive(Clone)]
pub struct Call {
    pub before: Vec<u8>,
    pub plan: Plan,
    /// What the call's own first row writes: which slots and inodes it is about.
    pub journal: Journal,
    /// Whether each of two names gets the other's file.
    pub exchange: bool,
}

/// How a state came to have the rows that wait.
#[derive(Clone, Copy, Debug, PartialEq, Eq, Hash)]
pub enum Phase {
    /// They are the call's own: no cut has come yet.
    Call,
    /// They are a repair's.
    Repair,
}

/// What tells one state from another. Images and plans are numbered as they are found.
#[derive(Clone, Copy, Debug, PartialEq, Eq, Hash)]
pub struct Key {
    pub image: usize,
    pub plan: usize,
    /// A bit for each row of the plan that waits.
    pub waiting: u16,
    pub phase: Phase,
    /// Whether the call's deciding row has landed.
    pub decided: bool,
}

/// A state, and where it leads.
#[derive(Clone, Debug)]
pub struct State {
    pub key: Key,
    /// Each row whose turn it is, with the state after it has landed.
    pub landings: Vec<(usize, usize)>,
    /// The state after a cut and the repair's answer.
    pub cut: Option<usize>,
    /// The state from which this one was found first, and by which row; or by a cut.
    pub from: Option<(usize, Option<usize>)>,
}

/// An image that a state has, and what repair makes of it.
#[derive(Clone)]
pub struct Reached {
    pub bytes: Vec<u8>,
    pub outcome: Outcome,
    pub names: Names,
    /// Whether its journal record is all zero.
    pub clear: bool,
}

/// What an image becomes once all rows of a repair have landed.
#[derive(Clone, Copy, Debug, PartialEq, Eq, PartialOrd, Ord)]
pub enum Outcome {
    Before,
    Finished,
    Otherwise,
}

/// All that was found.
pub struct Exploration {
    pub call: Call,
    pub finished: Vec<u8>,
    /// The first is the image before.
    pub images: Vec<Reached>,
    /// The first is the call's own.
    pub plans: Vec<Plan>,
    /// The first is the one before any row has landed.
    pub states: Vec<State>,
    /// What must not be, each with the state in which it was seen.
    pub breaches: Vec<(usize, String)>,
}

/// The rows of a plan that may land: of those that wait, the ones of the lowest group.
pub fn turns(plan: &Plan, waiting: u16) -> Vec<usize> {
    let waits = |row: &usize| waiting >> row & 1 == 1;
    let group = |row: usize| plan.row(row).map_or(0, |row| row.group);
    let lowest = (0..PLAN_ROWS).filter(waits).map(group).min();
    (0..PLAN_ROWS).filter(waits).filter(|&row| Some(group(row)) == lowest).collect()
}

/// A bit for each row of a plan.
pub fn all_rows(plan: &Plan) -> u16 {
    (1 << plan.rows().count()) - 1
}

impl Call {
    /// A call by its plan, which has rows.
    pub fn new(before: Vec<u8>, plan: Plan) -> Call {
        let journal = plan.row(0).and_then(|row| Journal::read(row.body)).unwrap_or_default();
        Call { before, plan, journal, exchange: journal.kind == operation::EXCHANGE }
    }

    /// The group whose only row decides whether the call is done: that of the new entry, or for an exchange of the journal record.
    pub fn deciding_group(&self) -> u8 {
        match self.exchange {
            true => 1,
            false => 2,
        }
    }
}

impl Exploration {
    /// The path by which a state was found: the rows that landed, and `None` for each cut.
    pub fn path_to(&self, state: usize) -> Vec<Option<usize>> {
        let mut path = Vec::new();
        let mut at = state;
        while let Some((from, event)) = self.states[at].from {
            path.push(event);
            at = from;
        }
        path.reverse();
        path
    }

    /// How many states repair takes to an outcome.
    pub fn ending(&self, outcome: Outcome) -> usize {
        self.states.iter().filter(|state| self.images[state.key.image].outcome == outcome).count()
    }
}

/// Numbers for values as they are found, so that equal ones have one number.
pub(crate) struct Numbered<K>(HashMap<K, usize>);

impl<K: std::hash::Hash + Eq> Numbered<K> {
    pub(crate) fn new() -> Self {
        Numbered(HashMap::new())
    }

    /// The number of a value, and whether it is new.
    pub(crate) fn number(&mut self, value: K) -> (usize, bool) {
        let next = self.0.len();
        let number = *self.0.entry(value).or_insert(next);
        (number, number == next)
    }
}
