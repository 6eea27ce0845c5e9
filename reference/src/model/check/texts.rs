//! Symlink texts that break a rule.

use super::records::{all_zero, those, Records};
use crate::model::image::{Text, SYMLINK, TEXT_MAX};

/// Used texts that can be read.
fn readable<'a>(records: &'a Records) -> impl Iterator<Item = (usize, Text<'a>)> {
    records.used_texts().filter(|(_, text)| text.text_len() <= TEXT_MAX)
}

/// Rule 11.
pub fn too_long(records: &Records) -> Vec<usize> {
    those(records.used_texts(), |_, text| text.text_len() > TEXT_MAX)
}

/// Rule 12.
pub fn with_bytes_behind_the_text(records: &Records) -> Vec<usize> {
    those(readable(records), |_, text| !all_zero(text.fill()))
}

/// Rule 17.
pub fn free_but_not_zero(records: &Records) -> Vec<usize> {
    let free = records.image.texts().enumerate().filter(|(_, text)| text.text_len() == 0);
    those(free, |_, text| !all_zero(text.0))
}

/// Rule 38.
pub fn with_a_zero(records: &Records) -> Vec<usize> {
    those(readable(records), |_, text| text.bytes().contains(&0))
}

/// Rule 39.
pub fn without_symlink(records: &Records) -> Vec<usize> {
    let mut named = vec![false; records.image.texts().count()];
    let fields = records.inodes_of(SYMLINK).map(|(_, symlink)| usize::from(symlink.field()));
    fields.for_each(|field| named.get_mut(field).into_iter().for_each(|named| *named = true));
    those(records.used_texts(), |number, _| !named[number])
}
