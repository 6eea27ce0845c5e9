//! Requests that are made of the single paths: each beside one that walks, and two of them together.

use super::probes;
use crate::cases::random::Random;
use crate::cases::trees::for_links::link_tree;
use crate::cases::trees::for_walks::GROUP;
use crate::cases::walk::probes::{self as requests, Probe};
use crate::cases::walk::{WalkCase, WalkCases};
use crate::model::numbers::{DONE, ELOOP};
use crate::model::permission::Credentials;

/// Every path as old and as new, beside one that walks.
pub fn single() -> WalkCases {
    requests::single(&link_tree(), &probes())
}

/// A path that has a symlink too many beside each one that is refused for something else, as old and as new in turn.
pub fn both_refused(random: &mut Random) -> WalkCases {
    let (too_many, others): (Vec<Probe>, Vec<Probe>) = probes().into_iter().partition(|probe| probe.as_old == ELOOP);
    let pair = |old: &Probe, new: &Probe| requests::case("both refused", &link_tree(), old, new);
    let refused = others.iter().filter(|other| other.as_new != DONE).enumerate();
    let in_turn = refused.map(|(turn, other)| match turn % 2 {
        0 => pair(random.pick(&too_many), other),
        _ => pair(other, random.pick(&too_many)),
    });
    in_turn.collect()
}

/// The longest walks there are, on both sides of one request.
pub fn both_longest() -> WalkCases {
    let longest = probes().into_iter().filter(|probe| probe.steps == 1408 && probe.as_old == DONE);
    longest.map(|probe| requests::case("longest walks", &link_tree(), &probe, &probe)).collect()
}

/// Any two, for somebody else or from another directory; the model's answer stands.
pub fn for_others(count: usize, random: &mut Random) -> WalkCases {
    let (probes, tree) = (probes(), link_tree());
    let directories = tree.directories();
    let mut other = |_| {
        let (old, new) = (random.pick(&probes), random.pick(&probes));
        let mut case = requests::case("other users and directories", &tree, old, new);
        case.request.who = Credentials::new(*random.pick(&[0, 0, 200, 300]), *random.pick(&[0, GROUP, 200]));
        case.request.current = if random.one_in(3) { *random.pick(&directories) } else { 0 };
        WalkCase { told: None, ..case }
    };
    (0..count).map(&mut other).collect()
}
