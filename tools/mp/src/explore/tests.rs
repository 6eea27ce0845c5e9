//! The explorer on the bench tree, and on stores and plans with a planted mistake, each of which it has to report.

mod mistakes;
mod pages;

use super::search::explore;
use super::unordered::unordered;
use super::*;
use crate::commands::bench;
use crate::request::Asked;
use mirepillar::EXCHANGE;

/// A call on the bench tree that is planned.
fn call(old: &str, new: &str, flags: u32) -> Call {
    let third = bench::third();
    let asked = Asked { flags, old: old.as_bytes().to_vec(), new: new.as_bytes().to_vec(), ..third };
    let image = bench::image().expect("the bench tree is sound");
    let mut plan = Plan::EMPTY;
    let answered = mirepillar::rename(&image, &asked.request(), &mut plan.0);
    assert!(answered.number.is_done() && answered.rows > 0, "{old} to {new}: {}", answered.number);
    Call::new(image, plan)
}

fn explored(call: Call) -> Exploration {
    explore(call, PROVED, &mut |_| ())
}

/// With k rows in group 3 each of them has landed or not; and during a repair each waits, or has landed once more, or landed before.
#[test]
fn as_many_states_as_there_are_ways() {
    let found = explored(call("/a/f", "/b/g", 0));
    let k = 5;
    assert_eq!(found.images.len(), 3 + (1 << k));
    assert_eq!(found.states.len(), found.images.len() + 3usize.pow(k) + 5);
    assert_eq!(found.breaches, []);
    assert_eq!(
        [Outcome::Before, Outcome::Finished, Outcome::Otherwise].map(|outcome| found.ending(outcome)),
        [5, 278, 0]
    );
}

#[test]
fn every_rename_of_the_bench_survives() {
    for (old, new) in [("/a/f", "/a/k"), ("/a/d", "/b/e/"), ("/s/f", "/k"), ("/s", "/t"), ("/b/g", "/s")] {
        assert_eq!(explored(call(old, new, 0)).breaches, [], "{old} to {new}");
    }
}

/// Between its two entries one of the files has no name, both ways round.
#[test]
fn an_exchange_survives_and_is_decided_by_its_journal_record() {
    let found = explored(call("/a", "/b/g", EXCHANGE));
    assert_eq!(found.breaches, []);
    let seen = |names: Names| found.images.iter().any(|image| image.names == names);
    assert!([Names::Old, Names::Exchanged, Names::BothToOlds, Names::BothToNews].into_iter().all(seen));
    let started = found.images.iter().filter(|image| image.names == Names::Old && !image.clear);
    assert!(started.map(|image| image.outcome).eq([Outcome::Finished]));
}

#[test]
fn a_row_waits_for_the_lower_groups() {
    let plan = call("/a/f", "/b/g", 0).plan;
    assert_eq!(all_rows(&plan), 0b1111_1111);
    assert_eq!(turns(&plan, 0b1111_1111), [0]);
    assert_eq!(turns(&plan, 0b1111_1110), [1]);
    assert_eq!(turns(&plan, 0b1101_0100), [2, 4, 6]);
    assert_eq!(turns(&plan, 0b1000_0000), [7]);
    assert_eq!(turns(&plan, 0), [0; 0]);
}

#[test]
fn a_state_is_found_again_by_its_path() {
    let found = explored(call("/a/f", "/b/g", 0));
    for (number, state) in found.states.iter().enumerate() {
        let follow = |at: usize, event: Option<usize>| match event {
            None => found.states[at].cut,
            Some(row) => found.states[at].landings.iter().find(|landing| landing.0 == row).map(|landing| landing.1),
        };
        let reached = found.path_to(number).into_iter().try_fold(0, follow);
        assert_eq!(reached, Some(number), "{:?}", state.key);
    }
}

/// The only file with one name: without the groups it can be left with none.
#[test]
fn without_the_groups_a_file_is_lost() {
    let without = unordered(&call("/b/g", "/g", 0), PROVED);
    assert_eq!(without.images, 1 << 7);
    assert_eq!(without.good + without.otherwise + without.refused, without.images);
    assert!(without.refused > 0 && without.nameless > 0);
    assert_eq!(without.loses, Some(vec![2]));
}
