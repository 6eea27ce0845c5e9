//! The rename, and what an exchange has in common with it: checked, walked, refused or planned (rules 63 to 92).

use super::case::{is_directory, Case, Directory, Named};
use super::check::is_consistent;
use super::exchange;
use super::image::Image;
use super::rows::{put_u16, put_u64, Rows, JOURNAL_FIRST, JOURNAL_LAST, NEW_NAME, NONE, THE_REST};
use super::walk::walk;
use crate::model::image::SYMLINK;
use crate::model::layout::{ENTRIES, INODES, JOURNAL, TEXTS};
use crate::model::numbers::{
    BAD_REQUEST, BUFFER_TOO_SHORT, DONE, EEXIST, EINVAL, ENOENT, ENOSPC, INCONSISTENT, JOURNAL_PENDING,
};
use crate::model::plan::PLAN_LEN;
use crate::model::rename::Answer;
use crate::model::request::{Request, EXCHANGE, FURTHER_MAX, NO_REPLACE};
use crate::model::walk::Role;

pub type Record = [u8; 32];

/// Answers for any bytes (rule 78). The plan changes only where the number is 0, and then in its first 648 bytes alone.
pub fn rename(bytes: &[u8], request: &Request, now: u64, plan: &mut [u8]) -> Answer {
    let mut steps = [0, 0];
    let (number, rows) = match planned(bytes, request, now, plan, &mut steps) {
        Ok(rows) => (DONE, rows),
        Err(number) => (number, 0),
    };
    Answer { number, rows, steps }
}

/// Rule 63: how many rows the plan has, or the number of the first refusal; and the counts of both walks as they went.
fn planned(bytes: &[u8], request: &Request, now: u64, plan: &mut [u8], steps: &mut [u16; 2]) -> Result<u8, u8> {
    if plan.len() < PLAN_LEN {
        return Err(BUFFER_TOO_SHORT);
    }
    let image = Image::read(bytes).ok_or(INCONSISTENT)?;
    if !image.journal_is_clear() {
        return Err(JOURNAL_PENDING);
    }
    if !is_consistent(&image) {
        return Err(INCONSISTENT);
    }
    if is_wrong(request, &image) {
        return Err(BAD_REQUEST);
    }
    if request.has_wrong_flags() {
        return Err(EINVAL);
    }
    let old = walk(&image, request, Role::Old, &mut steps[0])?;
    let new = walk(&image, request, Role::New, &mut steps[1])?;
    let case = Case::new(&image, request, old, new).ok_or(ENOENT)?;
    match (request.flags, case.replaced) {
        (NO_REPLACE, Some(_)) => Err(EEXIST),
        (EXCHANGE, None) => Err(ENOENT),
        // Two names of one inode (rule 65) are done without a row.
        (_, Some(replaced)) if replaced.number == case.moved.number => Ok(Rows::new(plan).count),
        (EXCHANGE, Some(replaced)) => planned_exchange(&case, replaced, now, plan),
        _ => planned_rename(&case, now, plan),
    }
}

fn planned_rename(case: &Case, now: u64, plan: &mut [u8]) -> Result<u8, u8> {
    case.refusal()?;
    let new_slot = case.replaced.map(|replaced| replaced.slot).or_else(|| case.lowest_free_slot()).ok_or(ENOSPC)?;
    let mut rows = Rows::new(plan);
    put_rows(&mut rows, case, new_slot, now);
    Ok(rows.count)
}

fn planned_exchange(case: &Case, replaced: Named, now: u64, plan: &mut [u8]) -> Result<u8, u8> {
    exchange::refusal(case, replaced)?;
    let mut rows = Rows::new(plan);
    exchange::put_rows(&mut rows, case, replaced, now);
    Ok(rows.count)
}

/// Rule 42.
fn is_wrong(request: &Request, image: &Image) -> bool {
    !image.is_directory(request.current)
        || request.old.path.contains(&0)
        || request.new.path.contains(&0)
        || request.who.further.len() > FURTHER_MAX
}

/// Rule 85.
fn put_rows(rows: &mut Rows, case: &Case, new_slot: u16, now: u64) {
    let offsets = case.image.offsets;
    let slot = |slot: u16| offsets[ENTRIES] + 32 * usize::from(slot);
    let inode = |number: u16| offsets[INODES] + 32 * usize::from(number);
    let freed_text = case.replaced.and_then(freed_text);
    rows.put(JOURNAL_FIRST, offsets[JOURNAL], &journal_record(case, new_slot, freed_text, now));
    rows.put(NEW_NAME, slot(new_slot), &new_entry(case));
    rows.put(THE_REST, slot(case.moved.slot), &[0; 32]);
    rows.put(THE_REST, inode(case.moved.number), &moved_inode(case.moved, case.into, now));
    rows.put(THE_REST, inode(case.from.number), &parent_inode(case.from, links_after(case, case.from), now));
    if !case.is_within_one_directory() {
        rows.put(THE_REST, inode(case.into.number), &parent_inode(case.into, links_after(case, case.into), now));
    }
    if let Some(replaced) = case.replaced {
        rows.put(THE_REST, inode(replaced.number), &replaced_inode(replaced, now));
    }
    if let Some(text) = freed_text {
        rows.put(THE_REST, offsets[TEXTS] + 64 * usize::from(text), &[0; 64]);
    }
    rows.put(JOURNAL_LAST, offsets[JOURNAL], &[0; 32]);
}

/// Rule 91: the text of a symlink that loses its last name.
fn freed_text(replaced: Named) -> Option<u16> {
    (replaced.inode.kind() == SYMLINK && replaced.names_left() == 0).then(|| replaced.inode.field())
}

/// Rule 87.
pub fn journal_record(case: &Case, new_slot: u16, freed_text: Option<u16>, now: u64) -> Record {
    let mut record = [0; 32];
    record[0] = 1;
    put_u16(&mut record, 2, case.moved.slot);
    put_u16(&mut record, 4, new_slot);
    put_u16(&mut record, 6, case.moved.number);
    put_u16(&mut record, 8, case.replaced.map_or(NONE, |replaced| replaced.number));
    put_u16(&mut record, 10, case.from.number);
    put_u16(&mut record, 12, freed_text.unwrap_or(NONE));
    put_u64(&mut record, 16, now);
    record
}

/// Rule 86: where the name exists already, this is its entry with another target.
pub fn new_entry(case: &Case) -> Record {
    let mut record = [0; 32];
    put_u16(&mut record, 0, case.into.number);
    put_u16(&mut record, 2, case.moved.number);
    record[4] = case.name.len;
    record[8..].copy_from_slice(&case.name.room);
    record
}

/// Rule 89.
pub fn moved_inode(moved: Named, into: Directory, now: u64) -> Record {
    let mut record = [0; 32];
    record.copy_from_slice(moved.inode.0);
    put_u64(&mut record, 24, now);
    if is_directory(moved.inode) {
        put_u16(&mut record, 14, into.number);
    }
    record
}

/// Only the moved and the replaced inode come or go, so that the others need not be counted (rule 88).
fn links_after(case: &Case, directory: Directory) -> u16 {
    let (is_from, is_into) = (directory.number == case.from.number, directory.number == case.into.number);
    let moves = is_directory(case.moved.inode);
    let replaces = case.replaced.is_some_and(|replaced| is_directory(replaced.inode));
    let (gained, lost) = (u16::from(is_into && moves), u16::from(is_from && moves) + u16::from(is_into && replaces));
    directory.inode.links() + gained - lost
}

/// Rule 90.
pub fn parent_inode(directory: Directory, links: u16, now: u64) -> Record {
    let mut record = [0; 32];
    record.copy_from_slice(directory.inode.0);
    put_u16(&mut record, 12, links);
    put_u64(&mut record, 16, now);
    put_u64(&mut record, 24, now);
    record
}

/// Rule 91: nothing is left of an inode without names.
fn replaced_inode(replaced: Named, now: u64) -> Record {
    let mut record = [0; 32];
    if replaced.names_left() != 0 {
        record.copy_from_slice(replaced.inode.0);
        put_u16(&mut record, 12, replaced.names_left());
        put_u64(&mut record, 24, now);
    }
    record
}
