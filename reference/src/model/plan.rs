//! The form of a plan: nine rows, then a body for each of them (rules 79 to 84).

pub const PLAN_LEN: usize = 648;
pub const ROWS: usize = 9;
pub const ROW_LEN: usize = 8;
pub const BODY_LEN: usize = 64;

/// Rule 81: one row as it stands in a plan, right or wrong.
#[derive(Clone, Copy, Debug, PartialEq, Eq)]
pub struct Row {
    pub group: u8,
    pub second: u8,
    pub len: u16,
    pub offset: u16,
    pub body: u16,
}

/// Rule 80: where the body of a row has to stand; also for numbers that no plan has.
pub fn body_position(number: usize) -> usize {
    ROWS * ROW_LEN + number * BODY_LEN
}

impl Row {
    pub fn read(plan: &[u8], number: usize) -> Row {
        let row = &plan[number * ROW_LEN..(number + 1) * ROW_LEN];
        let u16_at = |at: usize| u16::from_le_bytes([row[at], row[at + 1]]);
        Row { group: row[0], second: row[1], len: u16_at(2), offset: u16_at(4), body: u16_at(6) }
    }

    pub fn encode(self) -> [u8; ROW_LEN] {
        let ([l0, l1], [o0, o1], [b0, b1]) =
            (self.len.to_le_bytes(), self.offset.to_le_bytes(), self.body.to_le_bytes());
        [self.group, self.second, l0, l1, o0, o1, b0, b1]
    }
}

#[cfg(test)]
mod tests {
    use super::*;

    #[test]
    fn rows_are_read_as_they_were_encoded() {
        let row = Row { group: 3, second: 0, len: 32, offset: 424, body: 136 };
        let mut plan = [0; PLAN_LEN];
        plan[8..16].copy_from_slice(&row.encode());
        assert_eq!(plan[8..16], [3, 0, 32, 0, 168, 1, 136, 0]);
        assert_eq!(Row::read(&plan, 1), row);
        assert_eq!(body_position(ROWS), PLAN_LEN);
    }
}
