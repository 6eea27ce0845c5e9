//! The plan of an exchange, where it is not a rename's: its own steps and its own rows (rules 64c to 90a).

use super::case::{is_directory, Case, Directory, Named};
use super::rename::{journal_record, moved_inode, new_entry, parent_inode, Record};
use super::rows::{put_u16, Rows, JOURNAL_FIRST, JOURNAL_LAST, NEW_NAME, THE_REST};
use crate::model::image::LINKS_MAX;
use crate::model::layout::{ENTRIES, INODES, JOURNAL};
use crate::model::numbers::{EACCES, EINVAL, EMLINK};

/// The kind of an exchange in its journal record.
pub const EXCHANGE_KIND: u8 = 7;

/// Steps 2 to 7, 9 and 12: the number of the first that applies. Each inode goes into the other's directory.
pub fn refusal(case: &Case, replaced: Named) -> Result<(), u8> {
    case.parents_refusal()?;
    let moves = [(case.moved, case.into), (replaced, case.from)];
    let directories = || moves.iter().filter(|(named, _)| is_directory(named.inode));
    if directories().any(|(named, into)| case.is_or_is_above(*named, *into)) {
        return Err(EINVAL);
    }
    if case.is_within_one_directory() {
        return Ok(());
    }
    if directories().any(|(named, _)| !case.may_write(named.inode)) {
        return Err(EACCES);
    }
    let gains_one = directories().count() == 1;
    match directories().next() {
        Some((_, into)) if gains_one && into.inode.links() == LINKS_MAX => Err(EMLINK),
        _ => Ok(()),
    }
}

/// Rule 85a.
pub fn put_rows(rows: &mut Rows, case: &Case, replaced: Named, now: u64) {
    let offsets = case.image.offsets;
    let slot = |slot: u16| offsets[ENTRIES] + 32 * usize::from(slot);
    let inode = |number: u16| offsets[INODES] + 32 * usize::from(number);
    let mut journal = journal_record(case, replaced.slot, None, now);
    journal[1] = EXCHANGE_KIND;
    rows.put(JOURNAL_FIRST, offsets[JOURNAL], &journal);
    rows.put(NEW_NAME, slot(case.moved.slot), &old_entry(case, replaced));
    rows.put(NEW_NAME, slot(replaced.slot), &new_entry(case));
    rows.put(THE_REST, inode(case.moved.number), &moved_inode(case.moved, case.into, now));
    rows.put(THE_REST, inode(case.from.number), &parent_inode(case.from, links_after(case, case.from, replaced), now));
    if !case.is_within_one_directory() {
        let links = links_after(case, case.into, replaced);
        rows.put(THE_REST, inode(case.into.number), &parent_inode(case.into, links, now));
    }
    rows.put(THE_REST, inode(replaced.number), &moved_inode(replaced, case.from, now));
    rows.put(JOURNAL_LAST, offsets[JOURNAL], &[0; 32]);
}

/// Rule 86a: it keeps its parent and its name.
fn old_entry(case: &Case, replaced: Named) -> Record {
    let mut record = case.image.entries[usize::from(case.moved.slot)];
    put_u16(&mut record, 2, replaced.number);
    record
}

/// Rule 90a: what a parent loses the other one gains, and one parent of both loses nothing.
fn links_after(case: &Case, parent: Directory, replaced: Named) -> u16 {
    let moved = u16::from(is_directory(case.moved.inode));
    let replaced = u16::from(is_directory(replaced.inode));
    match (case.is_within_one_directory(), parent.number == case.from.number) {
        (true, _) => parent.inode.links(),
        (false, true) => parent.inode.links() + replaced - moved,
        (false, false) => parent.inode.links() + moved - replaced,
    }
}
