//! Landing: one row of a plan is copied onto the image (rules 94 to 101).

use super::layout::{Layout, ENTRIES, HANDLES, INODES, JOURNAL, SECTIONS, TEXTS};
use super::numbers::{BUFFER_TOO_SHORT, DONE, INCONSISTENT, NOT_LANDABLE};
use super::plan::{body_position, Row, PLAN_LEN, ROWS};
use super::refusal::Refusal;
use std::ops::{Range, RangeInclusive};

/// A header of zeros is no row (rule 83) and needs no test of its own, since its group is none of these.
const GROUPS: RangeInclusive<u8> = 1..=4;

/// Handles are not among them: no plan writes one.
const LANDABLE: [usize; 4] = [INODES, ENTRIES, TEXTS, JOURNAL];

const SHORT_PLAN: Refusal = Refusal::new(95, "short plan", BUFFER_TOO_SHORT);
const BAD_LAYOUT: Refusal = Refusal::new(96, "bad layout", INCONSISTENT);
const NO_ROW: Refusal = Refusal::new(97, "number above 8", NOT_LANDABLE);

/// A row with its number, on an image of some layout.
type Applies = fn(&Layout, &Row, usize) -> bool;

const ROW_REFUSALS: [(Refusal, Applies); 6] = [
    (Refusal::new(98, "group", NOT_LANDABLE), |_, row, _| !GROUPS.contains(&row.group)),
    (Refusal::new(99, "second byte", NOT_LANDABLE), |_, row, _| row.second != 0),
    (Refusal::new(99, "position", NOT_LANDABLE), |_, row, number| usize::from(row.body) != body_position(number)),
    (Refusal::new(100, "handle", NOT_LANDABLE), |layout, row, _| covers_one_of(layout, &[HANDLES], row)),
    (Refusal::new(100, "offset", NOT_LANDABLE), |layout, row, _| record_at(layout, &LANDABLE, row).is_none()),
    (Refusal::new(100, "length", NOT_LANDABLE), |layout, row, _| !covers_one_of(layout, &LANDABLE, row)),
];

/// Every reason, in the order of rule 94.
pub fn refusals() -> Vec<Refusal> {
    let ahead = [SHORT_PLAN, BAD_LAYOUT, NO_ROW];
    ahead.into_iter().chain(ROW_REFUSALS.iter().map(|(refusal, _)| *refusal)).collect()
}

/// Answers for any bytes and any number; the image changes only where the row has landed (rule 101).
pub fn land(image: &mut [u8], plan: &[u8], number: u64) -> u8 {
    match landable(image, plan, number) {
        Ok((body, record)) => {
            image[record].copy_from_slice(&plan[body]);
            DONE
        }
        Err(refusal) => refusal.number,
    }
}

/// The bytes of the plan that a row copies, and those of the image that they go to.
pub fn landable(image: &[u8], plan: &[u8], number: u64) -> Result<(Range<usize>, Range<usize>), Refusal> {
    if plan.len() < PLAN_LEN {
        return Err(SHORT_PLAN);
    }
    let layout = Layout::read(image).ok_or(BAD_LAYOUT)?;
    let number = usize::try_from(number).ok().filter(|&number| number < ROWS).ok_or(NO_ROW)?;
    let row = Row::read(plan, number);
    if let Some((refusal, _)) = ROW_REFUSALS.iter().find(|(_, applies)| applies(&layout, &row, number)) {
        return Err(*refusal);
    }
    let (body, offset, len) = (usize::from(row.body), usize::from(row.offset), usize::from(row.len));
    Ok((body..body + len, offset..offset + len))
}

/// The size of the record of one of the sections that begins where the row does.
fn record_at(layout: &Layout, sections: &[usize], row: &Row) -> Option<usize> {
    let offset = usize::from(row.offset);
    let begins_at = |section: usize| {
        let (records, len) = (layout.section(section), SECTIONS[section].record_len);
        (records.contains(&offset) && (offset - records.start).is_multiple_of(len)).then_some(len)
    };
    sections.iter().find_map(|&section| begins_at(section))
}

fn covers_one_of(layout: &Layout, sections: &[usize], row: &Row) -> bool {
    record_at(layout, sections, row) == Some(row.len.into())
}
