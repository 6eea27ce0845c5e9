//! The check of an image, and the list of everything that is wrong with one.

mod entries;
mod handles;
mod inodes;
mod records;
pub mod rules;
mod texts;

use super::fault::Fault;
use super::image::Image;
use super::layout::{layout_faults, LAYOUT_RULES};
use super::numbers::{DONE, INCONSISTENT, JOURNAL_PENDING};
use records::Records;
use rules::RECORD_RULES;

/// The rule of the journal record.
pub const JOURNAL_RULE: u8 = 14;

/// The answer for any bytes (rule 62): the layout counts first, then the journal record, then all the other records.
pub fn check(bytes: &[u8]) -> u8 {
    let broken = broken_rules(bytes);
    if broken.iter().any(|&rule| is_layout_rule(rule)) {
        INCONSISTENT
    } else if broken.contains(&JOURNAL_RULE) {
        JOURNAL_PENDING
    } else if broken.is_empty() {
        DONE
    } else {
        INCONSISTENT
    }
}

pub fn is_layout_rule(rule: u8) -> bool {
    LAYOUT_RULES.iter().any(|layout_rule| layout_rule.number == rule)
}

/// The rules that an image breaks, each once, in their order. Under a bad layout no record is looked at.
pub fn broken_rules(bytes: &[u8]) -> Vec<u8> {
    let mut rules: Vec<u8> = faults(bytes).iter().map(|fault| fault.rule).collect();
    rules.sort_unstable();
    rules.dedup();
    rules
}

/// Every rule with every record that breaks it, in order; a clash of two records is at the later one.
pub fn faults(bytes: &[u8]) -> Vec<Fault> {
    let mut faults: Vec<Fault> = match Image::read(bytes) {
        None => layout_faults(bytes).collect(),
        Some(image) => record_faults(&Records::new(image)).collect(),
    };
    faults.sort_unstable();
    faults
}

fn record_faults<'a>(records: &'a Records) -> impl Iterator<Item = Fault> + 'a {
    RECORD_RULES.iter().flat_map(|rule| {
        let broken_at = (rule.broken_at)(records).into_iter();
        broken_at.map(|record| Fault { section: rule.section, record, rule: rule.number })
    })
}
