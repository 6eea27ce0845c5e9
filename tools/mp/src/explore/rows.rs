//! The rows of a plan in words: which record each stores, and what part that has in the call.

use super::Call;
use crate::image::{record_at, Section};
use mirepillar::{Plan, Row};

/// The rows of a plan, a line for each.
pub fn lines(call: &Call, plan: &Plan) -> Vec<String> {
    let line = |(number, row): (usize, Row)| {
        let Row { group, offset, body } = row;
        format!("  group {group}  row {number}  {:<44} {} bytes at {offset}", said(call, &row), body.len())
    };
    plan.rows().enumerate().map(line).collect()
}

/// What a row stores, as `LINK 3, the old entry, cleared`.
pub fn said(call: &Call, row: &Row) -> String {
    let Some((section, number)) = record_at(&call.before, row.offset) else { return "no record".to_string() };
    let emptied = if row.body.iter().all(|&byte| byte == 0) { ", cleared" } else { "" };
    format!("{} {number}, {}{emptied}", section.name(), part(call, section, number))
}

/// The part that a record has in a call.
fn part(call: &Call, section: Section, number: usize) -> &'static str {
    let journal = call.journal;
    let is = |other: u16| usize::from(other) == number;
    match section {
        Section::Journal => "the journal record",
        Section::Texts => "the replaced symlink's text",
        Section::Entries if is(journal.old_slot) => "the old entry",
        Section::Entries => "the new entry",
        Section::Inodes if is(journal.moved) => "the moved inode",
        Section::Inodes if is(journal.replaced) && call.exchange => "the other moved inode",
        Section::Inodes if is(journal.replaced) => "the replaced inode",
        Section::Inodes if is(journal.old_parent) => "the old parent",
        Section::Inodes => "the new parent",
        Section::Handles => "a handle",
    }
}
