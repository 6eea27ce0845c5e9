//! Rules 95 to 100 and 102 to 109 with 106a: each clause refuses some landing or some repair.

use crate::model::land::{self, landable};
use crate::model::refusal::Refusal;
use crate::model::repair;
use crate::tests::made::{all_repairs, LANDINGS};
use std::collections::BTreeSet;

#[test]
fn every_refusal_of_landing_is_given() {
    let refusals = LANDINGS.cases.iter().filter_map(|case| landable(&case.image, &case.plan, case.row).err());
    assert_eq!(refusals.collect::<BTreeSet<Refusal>>(), BTreeSet::from_iter(land::refusals()));
}

#[test]
fn every_refusal_of_repair_is_given() {
    let refusals =
        all_repairs().filter_map(|case| repair::refusal(&case.image, case.plan.len.into(), case.scratch.len as usize));
    assert_eq!(refusals.collect::<BTreeSet<Refusal>>(), BTreeSet::from_iter(repair::refusals()));
}
