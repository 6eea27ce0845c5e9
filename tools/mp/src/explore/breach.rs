//! What must hold in every state: the customer's third demand, asked of one state at a time.

use super::names::Names;
use super::{Exploration, Key, Outcome, Phase};

/// What is wrong with a state.
pub fn seen(found: &Exploration, key: Key) -> Vec<String> {
    [outcome_is_wrong(found, key), end_is_wrong(found, key), names_are_wrong(found, key)]
        .into_iter()
        .flatten()
        .collect()
}

/// What a state has to become.
fn due(decided: bool) -> Outcome {
    match decided {
        true => Outcome::Finished,
        false => Outcome::Before,
    }
}

/// A repair from here, landed whole, must give the image that the deciding store says.
fn outcome_is_wrong(found: &Exploration, key: Key) -> Option<String> {
    let outcome = found.images[key.image].outcome;
    (outcome != due(key.decided))
        .then(|| format!("a repair leaves {}, and it should leave {}", said(outcome), said(due(key.decided))))
}

/// Where nothing waits any more, the image itself must be that one.
fn end_is_wrong(found: &Exploration, key: Key) -> Option<String> {
    let expected = match due(key.decided) {
        Outcome::Finished => &found.finished,
        _ => &found.call.before,
    };
    let wrong = key.waiting == 0 && found.images[key.image].bytes != *expected;
    let whose = match key.phase {
        Phase::Call => "the call's",
        Phase::Repair => "a repair's",
    };
    wrong.then(|| format!("all of {whose} rows have landed, and the image is not {}", said(due(key.decided))))
}

/// The moved file always has a name, and the slots keep their names. In an exchange one of two files may lack one.
fn names_are_wrong(found: &Exploration, key: Key) -> Option<String> {
    match found.images[key.image].names {
        names @ (Names::Lost | Names::Neither | Names::Foreign) => Some(names.said().to_string()),
        _ => None,
    }
}

pub fn said(outcome: Outcome) -> &'static str {
    match outcome {
        Outcome::Before => "the image before",
        Outcome::Finished => "the finished image",
        Outcome::Otherwise => "neither the image before nor the finished one",
    }
}
