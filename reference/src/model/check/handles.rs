//! Handles that break a rule.

use super::records::{all_zero, those, Records};
use crate::model::image::CLOSED;

/// Rule 7.
pub fn in_unknown_state(records: &Records) -> Vec<usize> {
    those(records.image.handles().enumerate(), |_, handle| handle.state() != CLOSED && !handle.is_open())
}

/// Rule 13.
pub fn open_with_other_bytes(records: &Records) -> Vec<usize> {
    those(records.open_handles(), |_, handle| handle.second_byte() != 0 || !all_zero(handle.pad()))
}

/// Rule 18.
pub fn closed_but_not_zero(records: &Records) -> Vec<usize> {
    let closed = records.image.handles().enumerate().filter(|(_, handle)| handle.state() == CLOSED);
    those(closed, |_, handle| !all_zero(handle.0))
}

/// Rule 40.
pub fn open_on_nothing(records: &Records) -> Vec<usize> {
    those(records.open_handles(), |_, handle| !records.image.is_used(handle.inode()))
}
