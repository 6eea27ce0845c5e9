//! The landing of one row: its place is looked up among the records of the sections that a row may be of (rules 94 to 101).

use super::image::Image;
use crate::model::layout::{HANDLES, INODES, JOURNAL, TEXTS};
use crate::model::numbers::{BUFFER_TOO_SHORT, DONE, INCONSISTENT, NOT_LANDABLE};
use crate::model::plan::{body_position, Row, PLAN_LEN, ROWS};
use std::ops::Range;

/// Answers for any bytes and any number. The image changes only where the row has landed.
pub fn land(bytes: &mut [u8], plan: &[u8], number: u64) -> u8 {
    if plan.len() < PLAN_LEN {
        return BUFFER_TOO_SHORT;
    }
    let Some(image) = Image::read(bytes) else {
        return INCONSISTENT;
    };
    let Some((body, record)) = landable(&image, plan, number) else {
        return NOT_LANDABLE;
    };
    bytes[record].copy_from_slice(&plan[body]);
    DONE
}

/// The bytes of the plan that are copied, and those of the image that they go to.
fn landable(image: &Image, plan: &[u8], number: u64) -> Option<(Range<usize>, Range<usize>)> {
    let number = usize::try_from(number).ok().filter(|&number| number < ROWS)?;
    let row = Row::read(plan, number);
    let (body, offset, len) = (usize::from(row.body), usize::from(row.offset), usize::from(row.len));
    let is_in_form = (1..=4).contains(&row.group) && row.second == 0 && body == body_position(number);
    (is_in_form && covers_one_record(image, offset, len)).then(|| (body..body + len, offset..offset + len))
}

/// Inodes and entries have one size and lie side by side, so that one test is for both.
fn covers_one_record(image: &Image, offset: usize, len: usize) -> bool {
    let at = image.offsets;
    let is_one_of = |records: Range<usize>, record_len: usize| {
        len == record_len && records.contains(&offset) && (offset - records.start).is_multiple_of(record_len)
    };
    is_one_of(at[INODES]..at[TEXTS], 32) || is_one_of(at[TEXTS]..at[HANDLES], 64) || (offset, len) == (at[JOURNAL], 32)
}
