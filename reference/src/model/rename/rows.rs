//! The rows of a rename, and how they are written into the plan (rules 85 to 92).

use super::exchange;
use super::parts::Parts;
use crate::model::image::{Inode, SYMLINK};
use crate::model::layout::{Layout, ENTRIES, INODES, JOURNAL, SECTIONS, TEXTS};
use crate::model::plan::{body_position, Row, PLAN_LEN, ROW_LEN};
use crate::model::walk::Existing;

/// What the journal record has in place of a replaced inode or a freed text, where there is none.
pub(super) const NONE: u16 = 65_535;

pub(super) const JOURNAL_FIRST: u8 = 1;
const NEW_NAME: u8 = 2;
pub(super) const THE_REST: u8 = 3;
pub(super) const JOURNAL_LAST: u8 = 4;

const PENDING: u8 = 1;

/// The kind of a rename, in the byte behind the mark.
const RENAME: u8 = 0;

/// A record to be written: its ordering group, its section, its number there, and its bytes.
pub struct Store {
    pub(super) group: u8,
    pub(super) section: usize,
    pub(super) number: u16,
    pub(super) body: Vec<u8>,
}

pub(super) fn cleared(section: usize) -> Vec<u8> {
    vec![0; SECTIONS[section].record_len]
}

pub(super) fn put_u16(record: &mut [u8], at: usize, value: u16) {
    record[at..at + 2].copy_from_slice(&value.to_le_bytes());
}

fn put_u64(record: &mut [u8], at: usize, value: u64) {
    record[at..at + 8].copy_from_slice(&value.to_le_bytes());
}

/// Every record that the call writes, in the order of the rows.
pub fn stores(parts: &Parts, now: u64) -> Vec<Store> {
    match parts.replaced.filter(|_| parts.exchange) {
        Some(replaced) => exchange::stores(parts, replaced, now),
        None => stores_of_a_rename(parts, now),
    }
}

/// Rule 85.
fn stores_of_a_rename(parts: &Parts, now: u64) -> Vec<Store> {
    let inode = |number: u16, body: Vec<u8>| Store { group: THE_REST, section: INODES, number, body };
    let new_slot = parts.replaced.map(|replaced| replaced.slot).or(parts.lowest_free_slot()).unwrap_or(NONE);
    let freed_text = parts.replaced.and_then(|replaced| text_freed_with(parts, replaced));
    let journal = journal_record(parts, new_slot, freed_text, now);
    let mut stores = vec![
        Store { group: JOURNAL_FIRST, section: JOURNAL, number: 0, body: journal },
        Store { group: NEW_NAME, section: ENTRIES, number: new_slot, body: new_entry(parts) },
        Store { group: THE_REST, section: ENTRIES, number: parts.moved.slot, body: cleared(ENTRIES) },
        inode(parts.moved.inode, moved_inode(parts, now)),
        inode(parts.old_parent, parent_inode(parts, parts.old_parent, now)),
    ];
    if !parts.within_one_directory() {
        stores.push(inode(parts.new_parent, parent_inode(parts, parts.new_parent, now)));
    }
    stores.extend(parts.replaced.map(|replaced| inode(replaced.inode, replaced_inode(parts, replaced, now))));
    stores.extend(freed_text.map(|number| Store { group: THE_REST, section: TEXTS, number, body: cleared(TEXTS) }));
    stores.push(Store { group: JOURNAL_LAST, section: JOURNAL, number: 0, body: cleared(JOURNAL) });
    stores
}

/// Rule 91: the text of a symlink that loses its last name.
fn text_freed_with(parts: &Parts, replaced: Existing) -> Option<u16> {
    let inode = parts.inode(replaced.inode);
    (inode.kind() == SYMLINK && parts.names_left(replaced) == 0).then(|| inode.field())
}

/// Rule 87.
fn journal_record(parts: &Parts, new_slot: u16, freed_text: Option<u16>, now: u64) -> Vec<u8> {
    let replaced = parts.replaced.map(|replaced| replaced.inode);
    let numbers = [
        parts.moved.slot,
        new_slot,
        parts.moved.inode,
        replaced.unwrap_or(NONE),
        parts.old_parent,
        freed_text.unwrap_or(NONE),
    ];
    journal_of(RENAME, numbers, now)
}

/// Form H: a pending record with its kind, its six numbers and its time.
pub(super) fn journal_of(kind: u8, numbers: [u16; 6], now: u64) -> Vec<u8> {
    let mut record = cleared(JOURNAL);
    (record[0], record[1]) = (PENDING, kind);
    for (i, number) in numbers.into_iter().enumerate() {
        put_u16(&mut record, 2 + 2 * i, number);
    }
    put_u64(&mut record, 16, now);
    record
}

/// Rule 86: where the name exists already, this is its entry with another target.
fn new_entry(parts: &Parts) -> Vec<u8> {
    let mut record = cleared(ENTRIES);
    put_u16(&mut record, 0, parts.new_parent);
    put_u16(&mut record, 2, parts.moved.inode);
    record[4] = parts.new_name.len() as u8;
    record[8..8 + parts.new_name.len()].copy_from_slice(&parts.new_name);
    record
}

/// Rule 92: any time is stored as it is given.
pub(super) fn changed_at(inode: Inode, now: u64) -> Vec<u8> {
    let mut record = inode.0.to_vec();
    put_u64(&mut record, 24, now);
    record
}

/// Rule 89.
pub(super) fn moved_inode(parts: &Parts, now: u64) -> Vec<u8> {
    let mut record = changed_at(parts.inode(parts.moved.inode), now);
    if parts.moves_a_directory() {
        put_u16(&mut record, 14, parts.new_parent);
    }
    record
}

/// Rule 90. Only the moved and the replaced inode come or go, so that rule 31 is kept by counting those (rule 88).
pub(super) fn parent_inode(parts: &Parts, directory: u16, now: u64) -> Vec<u8> {
    let inode = parts.inode(directory);
    let mut record = changed_at(inode, now);
    put_u64(&mut record, 16, now);
    put_u16(&mut record, 12, inode.links() + directories_gained(parts, directory) - directories_lost(parts, directory));
    record
}

/// In an exchange the old parent gains what the new one loses.
fn directories_gained(parts: &Parts, directory: u16) -> u16 {
    let moved = directory == parts.new_parent && parts.moves_a_directory();
    let replaced = parts.exchange && directory == parts.old_parent && parts.replaces_a_directory();
    u16::from(moved) + u16::from(replaced)
}

fn directories_lost(parts: &Parts, directory: u16) -> u16 {
    let moved = directory == parts.old_parent && parts.moves_a_directory();
    let replaced = directory == parts.new_parent && parts.replaces_a_directory();
    u16::from(moved) + u16::from(replaced)
}

/// Rule 91: nothing is left of an inode without names.
fn replaced_inode(parts: &Parts, replaced: Existing, now: u64) -> Vec<u8> {
    let inode = parts.inode(replaced.inode);
    match parts.names_left(replaced) {
        0 => cleared(INODES),
        names => {
            let mut record = changed_at(inode, now);
            put_u16(&mut record, 12, names);
            record
        }
    }
}

/// Rules 79 and 82: clears the plan and puts the rows; what a buffer has past the plan stays.
pub fn write(plan: &mut [u8], layout: &Layout, stores: &[Store]) {
    plan[..PLAN_LEN].fill(0);
    for (number, store) in stores.iter().enumerate() {
        let body = body_position(number);
        let row = Row {
            group: store.group,
            second: 0,
            len: store.body.len() as u16,
            offset: layout.position(store.section, store.number.into()) as u16,
            body: body as u16,
        };
        plan[number * ROW_LEN..(number + 1) * ROW_LEN].copy_from_slice(&row.encode());
        plan[body..body + store.body.len()].copy_from_slice(&store.body);
    }
}
