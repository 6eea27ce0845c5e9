//! The rows of an exchange (rule 85a): both entries change their targets in one group, and nothing is freed.

use super::parts::Parts;
use super::rows::{
    changed_at, cleared, journal_of, moved_inode, parent_inode, put_u16, Store, JOURNAL_FIRST, JOURNAL_LAST, NONE,
    THE_REST,
};
use crate::model::layout::{ENTRIES, INODES, JOURNAL};
use crate::model::walk::Existing;

/// The kind of an exchange in its journal record.
const EXCHANGE: u8 = 7;

const BOTH_NAMES: u8 = 2;

pub fn stores(parts: &Parts, replaced: Existing, now: u64) -> Vec<Store> {
    let moved = parts.moved;
    let entry = |slot: u16, target: u16| Store {
        group: BOTH_NAMES,
        section: ENTRIES,
        number: slot,
        body: entry_with(parts, slot, target),
    };
    let inode = |number: u16, body: Vec<u8>| Store { group: THE_REST, section: INODES, number, body };
    let mut stores = vec![
        Store { group: JOURNAL_FIRST, section: JOURNAL, number: 0, body: journal_record(parts, replaced, now) },
        entry(moved.slot, replaced.inode),
        entry(replaced.slot, moved.inode),
        inode(moved.inode, moved_inode(parts, now)),
        inode(parts.old_parent, parent_inode(parts, parts.old_parent, now)),
    ];
    if !parts.within_one_directory() {
        stores.push(inode(parts.new_parent, parent_inode(parts, parts.new_parent, now)));
    }
    stores.push(inode(replaced.inode, replaced_inode(parts, replaced, now)));
    stores.push(Store { group: JOURNAL_LAST, section: JOURNAL, number: 0, body: cleared(JOURNAL) });
    stores
}

/// Rule 87a: the record names no text, since none is freed.
fn journal_record(parts: &Parts, replaced: Existing, now: u64) -> Vec<u8> {
    let numbers = [parts.moved.slot, replaced.slot, parts.moved.inode, replaced.inode, parts.old_parent, NONE];
    journal_of(EXCHANGE, numbers, now)
}

/// The entry keeps its parent and its name.
fn entry_with(parts: &Parts, slot: u16, target: u16) -> Vec<u8> {
    let entry = parts.image.entries().nth(slot.into());
    let mut record = entry.map_or(cleared(ENTRIES), |entry| entry.0.to_vec());
    put_u16(&mut record, 2, target);
    record
}

/// Rule 89a: as of the moved inode (rule 89), with the other parent.
fn replaced_inode(parts: &Parts, replaced: Existing, now: u64) -> Vec<u8> {
    let mut record = changed_at(parts.inode(replaced.inode), now);
    if parts.replaces_a_directory() {
        put_u16(&mut record, 14, parts.old_parent);
    }
    record
}
