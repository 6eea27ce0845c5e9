//! The check answers for any bytes.

use crate::cases::random::Random;
use crate::cases::trees::samples::every_state;
use crate::model::check::{broken_rules, check};
use crate::model::layout::{Layout, CONTENTS_LEN, JOURNAL};
use crate::model::numbers::INCONSISTENT;

/// Random records under a right layout, with small numbers so that records often name each other.
#[test]
fn any_records_are_answered() {
    let mut random = Random::new(1);
    let tree = every_state().encode();
    let journal = Layout::read(&tree).expect("the layout is right").offsets[JOURNAL];
    for round in 0..2_000 {
        let mut image = tree.clone();
        let mask = [1, 3, 15, 255][round % 4];
        image[CONTENTS_LEN..journal].fill_with(|| random.byte() & mask);
        assert_eq!(check(&image), INCONSISTENT);
        assert!(!broken_rules(&image).is_empty());
    }
}

#[test]
fn any_length_is_answered() {
    let tree = every_state().encode();
    for len in 0..tree.len() {
        assert_eq!(check(&tree[..len]), INCONSISTENT);
        assert_eq!(check(&vec![0xff; len]), INCONSISTENT);
    }
}
