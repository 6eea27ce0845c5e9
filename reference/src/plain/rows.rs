//! The rows of a plan, put one behind the other into a plan that has been cleared (rules 79 to 84).

use crate::model::plan::{body_position, Row, PLAN_LEN, ROW_LEN};

pub const JOURNAL_FIRST: u8 = 1;
pub const NEW_NAME: u8 = 2;
pub const THE_REST: u8 = 3;
pub const JOURNAL_LAST: u8 = 4;

/// A number that the journal record has in place of a replaced inode or a freed text, where there is none.
pub const NONE: u16 = 65_535;

pub struct Rows<'a> {
    plan: &'a mut [u8],
    pub count: u8,
}

impl<'a> Rows<'a> {
    pub fn new(plan: &'a mut [u8]) -> Rows<'a> {
        let plan = &mut plan[..PLAN_LEN];
        plan.fill(0);
        Rows { plan, count: 0 }
    }

    /// The next row: the bytes that a record is to have, and where it begins in the image.
    pub fn put(&mut self, group: u8, offset: usize, record: &[u8]) {
        let number = usize::from(self.count);
        let body = body_position(number);
        let row = Row { group, second: 0, len: record.len() as u16, offset: offset as u16, body: body as u16 };
        self.plan[number * ROW_LEN..(number + 1) * ROW_LEN].copy_from_slice(&row.encode());
        self.plan[body..body + record.len()].copy_from_slice(record);
        self.count += 1;
    }
}

pub fn put_u16(record: &mut [u8], at: usize, value: u16) {
    record[at..at + 2].copy_from_slice(&value.to_le_bytes());
}

pub fn put_u64(record: &mut [u8], at: usize, value: u64) {
    record[at..at + 8].copy_from_slice(&value.to_le_bytes());
}
