//! The order of refusal with flags, rules 42a and 64a to 77: each clause is some call's answer, and neighbours meet.

use super::order::{applying, neighbouring_clauses, places_met, steps_of, Applying};
use crate::cases::exchange::{EXCHANGE, NO_REPLACE};
use crate::model::image::Image;
use crate::model::numbers::DONE;
use crate::model::rename::call::Call;
use crate::model::rename::order::{Of, Place, Test, ORDER};
use crate::tests::made::{renames_with_flags, WITH_FLAGS};
use crate::vectors::Renaming;
use std::collections::BTreeSet;
use std::sync::LazyLock;

/// All that apply to each call, in their order.
static APPLYING: LazyLock<Vec<Applying>> = LazyLock::new(|| renames_with_flags().map(applying).collect());

fn calls() -> impl Iterator<Item = (&'static Renaming, &'static Applying)> {
    renames_with_flags().zip(APPLYING.iter())
}

/// What applies to each call with just these flags.
fn with(flags: u32) -> impl Iterator<Item = &'static Applying> {
    calls().filter(move |(renaming, _)| renaming.request.flags == flags).map(|(_, all)| all)
}

#[test]
fn the_first_that_applies_is_the_answer() {
    for (all, (_, line)) in APPLYING.iter().zip(WITH_FLAGS.renames()) {
        let number = all.first().map_or(DONE, |(_, refusal)| refusal.number);
        assert_eq!(line.split(' ').next(), Some(number.to_string().as_str()));
    }
}

/// The clauses of the flags and of the steps that answer some call.
fn answers(flags: u32) -> BTreeSet<(Place, &'static str)> {
    let firsts = with(flags).filter_map(|all| all.first()).map(|(place, refusal)| (*place, refusal.clause));
    firsts.filter(|(place, _)| *place > Place::NewWalk || *place == Place::Flags).collect()
}

#[test]
fn every_clause_is_the_answer_to_some_exchange() {
    let mut clauses: BTreeSet<_> = steps_of(true).map(|(place, refusal)| (place, refusal.clause)).collect();
    clauses.insert((Place::NewName, "new is missing"));
    assert_eq!(answers(EXCHANGE), clauses);
    assert_eq!(answers(NO_REPLACE | EXCHANGE), BTreeSet::from([(Place::Flags, "wrong flags")]));
}

/// Clauses that need something to replace, which no-replace never gets to.
const REPLACING: [&str; 8] = [
    "one inode",
    "replaced is a mount point",
    "into is sticky",
    "a directory onto none",
    "none onto a directory",
    "replaced has entries",
    "replaced is the current directory",
    "replaced is open",
];

#[test]
fn every_other_clause_is_the_answer_to_some_rename_with_no_replace() {
    let steps = steps_of(false).map(|(place, refusal)| (place, refusal.clause));
    let mut clauses: BTreeSet<_> = steps.filter(|(_, clause)| !REPLACING.contains(clause)).collect();
    clauses.insert((Place::NewName, "new exists"));
    assert_eq!(answers(NO_REPLACE), clauses);
}

/// Places from the request on, as an exchange has them.
fn places() -> Vec<Place> {
    let ahead = [Place::Request, Place::Flags, Place::OldWalk, Place::NewWalk, Place::NewName];
    let mut places: Vec<Place> = ahead.into_iter().chain(steps_of(true).map(|(place, _)| place)).collect();
    places.dedup();
    places
}

#[test]
fn neighbours_in_the_order_meet() {
    let met = places_met(calls());
    for pair in places().windows(2) {
        assert!(met.contains(&(pair[0], pair[1])), "{pair:?}");
    }
}

/// What either flag asks of new stands behind new's walk and ahead of every step. Steps 12 and 13 of a rename need that
/// nothing is replaced, and so never meet no-replace; steps 1 and 12 of an exchange need that something is.
#[test]
fn what_the_flags_ask_of_new_meets_every_step_that_it_can_meet() {
    let asked: [(u32, &[u8]); 2] =
        [(NO_REPLACE, &[1, 2, 3, 4, 5, 6, 7, 8, 9, 10, 11]), (EXCHANGE, &[2, 3, 4, 5, 6, 7, 9])];
    for (flags, steps) in asked {
        let met = places_met(calls().filter(|(renaming, _)| renaming.request.flags == flags));
        assert!(met.contains(&(Place::NewWalk, Place::NewName)), "{flags}");
        for step in 1..=13 {
            let is_met = met.contains(&(Place::NewName, Place::Step(step)));
            assert_eq!(is_met, steps.contains(&step), "flags {flags}, step {step}");
        }
    }
}

#[test]
fn wrong_flags_meet_both_walks_and_every_step() {
    let wrong = places_met(calls().filter(|(renaming, _)| renaming.request.flags > EXCHANGE));
    for place in [Place::OldWalk, Place::NewWalk].into_iter().chain((1..=13).map(Place::Step)) {
        assert!(wrong.contains(&(Place::Flags, place)), "{place:?}");
    }
}

/// Two names of one file are on one file system, not above each other, and change no parent.
#[test]
fn every_two_steps_of_an_exchange_that_can_meet_do() {
    let never = [(1, 3), (1, 7), (1, 9), (1, 12)];
    let met = places_met(calls().filter(|(renaming, _)| renaming.request.flags == EXCHANGE));
    let asked = [1, 2, 3, 4, 5, 6, 7, 9, 12];
    for (first, second) in asked.iter().flat_map(|first| asked.iter().map(move |second| (*first, *second))) {
        let is_met = met.contains(&(Place::Step(first), Place::Step(second)));
        assert_eq!(is_met, first < second && !never.contains(&(first, second)), "steps {first} and {second}");
    }
}

/// Moved above into and replaced above from would each lie in the other.
const CLAUSES_APART: [(&str, &str); 1] = [("moved is above into", "replaced is from")];

#[test]
fn neighbouring_clauses_of_an_exchange_meet() {
    let mut met = BTreeSet::new();
    for all in with(EXCHANGE).filter(|all| all.first().is_some_and(|(place, _)| *place > Place::NewName)) {
        met.extend(all[1..].iter().map(|(_, later)| (all[0].1.clause, later.clause)));
    }
    for pair in neighbouring_clauses(true) {
        assert_eq!(met.contains(&pair), !CLAUSES_APART.contains(&pair), "{pair:?}");
    }
}

/// Were a clause not asked, some call would be answered otherwise.
#[test]
fn every_clause_decides() {
    let exchanges: Vec<&Applying> = with(EXCHANGE).collect();
    for (_, refusal) in steps_of(true) {
        let decides = |all: &&&Applying| {
            let is_first = all.first().is_some_and(|(_, first)| first.clause == refusal.clause);
            is_first && all.get(1).is_none_or(|(_, next)| next.number != refusal.number)
        };
        assert!(exchanges.iter().filter(decides).count() >= 2, "{}", refusal.clause);
    }
}

#[test]
fn every_step_of_an_exchange_applies_alone() {
    for step in [1, 2, 3, 4, 5, 6, 7, 9, 12] {
        let is_alone = |all: &&Applying| !all.is_empty() && all.iter().all(|(place, _)| *place == Place::Step(step));
        assert!(with(EXCHANGE).filter(is_alone).count() >= 10, "step {step}");
    }
}

/// Were a step of a rename asked that is not asked of an exchange, some exchange would be refused; but for what needs that
/// nothing is replaced.
#[test]
fn steps_that_are_not_asked_would_refuse_some_exchange() {
    let mut would = BTreeSet::new();
    for (renaming, _) in calls().filter(|(renaming, all)| renaming.request.flags == EXCHANGE && all.is_empty()) {
        let image = Image::read(&renaming.image);
        let call = Call::new(&renaming.image, image.as_ref(), &renaming.request, renaming.buffer.len.into());
        for (_, test) in &ORDER {
            if let Test::Parts(refusal, Of::Rename, applies) = test {
                would.extend(call.parts().filter(|parts| applies(parts)).map(|_| refusal.clause));
            }
        }
    }
    let clauses = [
        "a directory onto none",
        "none onto a directory",
        "replaced has entries",
        "replaced is the current directory",
        "replaced is open",
    ];
    assert_eq!(would, BTreeSet::from(clauses));
}
