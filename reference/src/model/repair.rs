//! Repair: after a crash, a rename whose new name has landed is carried to its end, and any other is taken back; an
//! exchange is carried to its end (rules 102 to 111).

mod exchange;
mod journal;
mod redo;

use super::check::broken_rules;
use super::image::Image;
use super::layout::{Layout, JOURNAL};
use super::numbers::{BUFFER_TOO_SHORT, DONE, INCONSISTENT, NOT_REPAIRABLE};
use super::plan::PLAN_LEN;
use super::refusal::Refusal;
use journal::Record;
use redo::Redo;

const SHORT_PLAN: Refusal = Refusal::new(102, "short plan", BUFFER_TOO_SHORT);
const SHORT_SCRATCH: Refusal = Refusal::new(102, "short scratch", BUFFER_TOO_SHORT);
const BAD_LAYOUT: Refusal = Refusal::new(102, "bad layout", INCONSISTENT);
const BROKEN_RECORDS: Refusal = Refusal::new(103, "broken records", INCONSISTENT);
const BAD_OUTCOME: Refusal = Refusal::new(109, "outcome", NOT_REPAIRABLE);

/// Every reason to refuse, in the order in which they are asked.
pub fn refusals() -> Vec<Refusal> {
    let ahead = [SHORT_PLAN, SHORT_SCRATCH, BAD_LAYOUT, BROKEN_RECORDS];
    ahead.into_iter().chain(journal::refusals()).chain([BAD_OUTCOME]).collect()
}

/// What a repair answers: its number, and the rows in the plan.
#[derive(Clone, Copy, Debug, PartialEq, Eq)]
pub struct Answer {
    pub number: u8,
    pub rows: u8,
}

/// Answers for any bytes. Where the number is 0, the plan's first 648 bytes and as much of the scratch as the image
/// is long are written (rule 111); where it is 204, that much of the scratch is cleared (rule 110); all else stays.
pub fn repair(bytes: &[u8], plan: &mut [u8], scratch: &mut [u8]) -> Answer {
    let recovered = recovered(bytes, plan.len(), scratch.len());
    match recovered {
        Ok(redo) => {
            redo.write(plan);
            scratch[..bytes.len()].copy_from_slice(&redo.bytes);
            Answer { number: DONE, rows: redo.rows() }
        }
        Err(Refusal { number, .. }) => {
            if number == NOT_REPAIRABLE {
                scratch[..bytes.len()].fill(0);
            }
            Answer { number, rows: 0 }
        }
    }
}

/// Why a repair with buffers of these lengths is refused, if it is.
pub fn refusal(bytes: &[u8], plan_len: usize, scratch_len: usize) -> Option<Refusal> {
    recovered(bytes, plan_len, scratch_len).err()
}

/// Rules 102, 103 and 109, with those of the journal record between them.
fn recovered(bytes: &[u8], plan_len: usize, scratch_len: usize) -> Result<Redo, Refusal> {
    if plan_len < PLAN_LEN {
        return Err(SHORT_PLAN);
    }
    if scratch_len < bytes.len() {
        return Err(SHORT_SCRATCH);
    }
    let (layout, image) = Layout::read(bytes).zip(Image::read(bytes)).ok_or(BAD_LAYOUT)?;
    let redo = Redo::new(bytes, layout);
    let (redo, inconsistent) = match image.journal.iter().all(|&byte| byte == 0) {
        true => (redo, BROKEN_RECORDS),
        false => (with_journal(&image, redo)?, BAD_OUTCOME),
    };
    match broken_rules(&redo.bytes).is_empty() {
        true => Ok(redo),
        false => Err(inconsistent),
    }
}

/// What the journal record asks for. Where the new name of a rename has not landed, that is only to clear the record
/// (rule 107).
fn with_journal(image: &Image, mut redo: Redo) -> Result<Redo, Refusal> {
    match Record::read(image, &redo.layout)? {
        Record::Rename(journal) => {
            if let Some(new_parent) = journal.new_parent(image)? {
                redo.finish(&journal, new_parent);
            }
        }
        Record::Exchange(exchange) => redo.finish_exchange(&exchange, exchange.new_parent(image)),
    }
    redo.clear(redo::JOURNAL_LAST, JOURNAL, 0);
    Ok(redo)
}
