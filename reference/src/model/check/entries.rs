//! Directory entries that break a rule.

use super::records::{all_zero, those, Records};
use crate::model::image::{Entry, DIRECTORY, FILE, NAME_MAX, SYMLINK};

/// Used entries whose name can be read.
fn named<'a>(records: &'a Records) -> impl Iterator<Item = (usize, Entry<'a>)> {
    records.used_entries().filter(|(_, entry)| entry.name_len() <= NAME_MAX)
}

/// Rule 10. Behind a name that is too long there is nothing.
pub fn with_bytes_beside_the_name(records: &Records) -> Vec<usize> {
    those(records.used_entries(), |_, entry| !all_zero(entry.pad()) || !all_zero(entry.name_fill()))
}

/// Rule 16.
pub fn free_but_not_zero(records: &Records) -> Vec<usize> {
    let free = records.image.entries().enumerate().filter(|(_, entry)| entry.name_len() == 0);
    those(free, |_, entry| !all_zero(entry.0))
}

/// Rule 21.
pub fn that_target_root(records: &Records) -> Vec<usize> {
    those(records.used_entries(), |_, entry| entry.target() == 0)
}

/// Rule 22.
pub fn whose_parent_is_no_directory(records: &Records) -> Vec<usize> {
    those(records.used_entries(), |_, entry| !records.image.is_directory(entry.parent()))
}

/// Rule 23.
pub fn whose_target_is_free(records: &Records) -> Vec<usize> {
    those(records.used_entries(), |_, entry| !records.image.is_used(entry.target()))
}

/// Rule 24.
pub fn with_a_name_too_long(records: &Records) -> Vec<usize> {
    those(records.used_entries(), |_, entry| entry.name_len() > NAME_MAX)
}

/// Rule 25.
pub fn with_a_zero_or_a_slash(records: &Records) -> Vec<usize> {
    those(named(records), |_, entry| entry.name().iter().any(|&byte| byte == 0 || byte == b'/'))
}

/// Rule 26.
pub fn named_dot_or_dot_dot(records: &Records) -> Vec<usize> {
    those(named(records), |_, entry| entry.name() == b"." || entry.name() == b"..")
}

/// Rule 27. Sorted, entries with the same parent and name become neighbours, the later slot behind.
pub fn with_a_name_that_is_taken(records: &Records) -> Vec<usize> {
    let mut keys: Vec<(u16, &[u8], usize)> =
        named(records).map(|(slot, entry)| (entry.parent(), entry.name(), slot)).collect();
    keys.sort_unstable();
    let pairs = keys.windows(2).filter(|pair| (pair[0].0, pair[0].1) == (pair[1].0, pair[1].1));
    pairs.map(|pair| pair[1].2).collect()
}

/// Rule 29.
pub fn of_directories_with_another_parent(records: &Records) -> Vec<usize> {
    those(records.used_entries(), |_, entry| match records.image.inode(entry.target()) {
        Some(inode) if inode.kind() == DIRECTORY && entry.target() != 0 => inode.field() != entry.parent(),
        _ => false,
    })
}

/// Rule 35.
pub fn across_file_systems(records: &Records) -> Vec<usize> {
    those(records.used_entries(), |_, entry| {
        let holder = records.image.inode(entry.parent()).filter(|inode| inode.kind() == DIRECTORY);
        let held = records.image.inode(entry.target()).filter(|inode| matches!(inode.kind(), FILE | SYMLINK));
        holder.zip(held).is_some_and(|(holder, held)| holder.file_system() != held.file_system())
    })
}
