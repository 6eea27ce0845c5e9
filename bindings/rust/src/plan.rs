//! A plan's bytes read as rows.

use crate::{PLAN_BYTES, PLAN_ROWS};

const ROW_BYTES: usize = 8;
const BODY_BYTES: usize = 64;

/// A plan of at most nine rows, each the store of one record.
#[derive(Clone, PartialEq, Eq, Hash, Debug)]
pub struct Plan(pub [u8; PLAN_BYTES]);

/// One row of a plan: the bytes that are stored at an offset of the image, and the ordering group in which they are.
#[derive(Clone, Copy, PartialEq, Eq, Debug)]
pub struct Row<'a> {
    pub group: u8,
    pub offset: usize,
    pub body: &'a [u8],
}

impl Plan {
    /// A plan of no rows.
    pub const EMPTY: Plan = Plan([0; PLAN_BYTES]);

    /// Row `number`, or nothing where that row's header is all zero, does not fit, or is beyond the last.
    pub fn row(&self, number: usize) -> Option<Row<'_>> {
        if number >= PLAN_ROWS {
            return None;
        }
        let header = &self.0[ROW_BYTES * number..][..ROW_BYTES];
        let word = |at: usize| usize::from(u16::from_le_bytes([header[at], header[at + 1]]));
        let (length, offset, position) = (word(2), word(4), word(6));
        if header.iter().all(|&byte| byte == 0) || length > BODY_BYTES {
            return None;
        }
        let body = self.0.get(position..position + length)?;
        Some(Row { group: header[0], offset, body })
    }

    /// The rows up to the first that is missing.
    pub fn rows(&self) -> impl Iterator<Item = Row<'_>> {
        (0..PLAN_ROWS).map_while(|number| self.row(number))
    }
}

impl Default for Plan {
    fn default() -> Self {
        Plan::EMPTY
    }
}
