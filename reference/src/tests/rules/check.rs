//! Rules 1 to 40: each is broken by some case, and each by some case alone.

use crate::model::check::rules::RECORD_RULES;
use crate::model::check::{broken_rules, check, faults, JOURNAL_RULE};
use crate::model::layout::LAYOUT_RULES;
use crate::model::numbers::{DONE, INCONSISTENT, JOURNAL_PENDING};
use crate::tests::made::CHECKS;
use std::collections::BTreeSet;

#[test]
fn every_rule_has_its_place_in_the_tables() {
    let numbers = LAYOUT_RULES.iter().map(|rule| rule.number).chain(RECORD_RULES.iter().map(|rule| rule.number));
    assert!(numbers.eq(1..=40));
}

/// Cases in which no other rule is broken. There is no exception: the rules of a record that is free, or of an unknown
/// type, give way to the one that says so; and a root that is free, among free records only, leaves nothing else.
#[test]
fn every_rule_is_broken_alone() {
    let broken: Vec<Vec<u8>> = CHECKS.cases.iter().map(|image| broken_rules(image)).collect();
    let alone: BTreeSet<u8> = broken.iter().filter(|rules| rules.len() == 1).map(|rules| rules[0]).collect();
    let never: Vec<u8> = (1..=40).filter(|rule| !alone.contains(rule)).collect();
    assert_eq!(never, [] as [u8; 0], "these are never broken alone");
}

/// The journal record's own number; and the layout's rules stand alone, since no record is looked at under them.
#[test]
fn the_broken_rules_tell_the_answer() {
    for image in &CHECKS.cases {
        let broken = broken_rules(image);
        let number = match broken[..] {
            [] => DONE,
            [first, ..] if first > 5 && broken.contains(&JOURNAL_RULE) => JOURNAL_PENDING,
            _ => INCONSISTENT,
        };
        assert_eq!(check(image), number);
        assert!(broken.iter().all(|&rule| rule <= 5) || broken.iter().all(|&rule| rule > 5));
    }
}

#[test]
fn faults_are_in_order_and_each_is_there_once() {
    for image in &CHECKS.cases {
        assert!(faults(image).windows(2).all(|pair| pair[0] < pair[1]));
    }
}
