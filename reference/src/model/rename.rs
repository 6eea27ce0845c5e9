//! Renaming, and exchanging two names: a request is refused, or planned as rows that carry it out once they have landed.

pub mod call;
mod exchange;
pub mod finished;
pub mod order;
pub mod parts;
mod rows;
mod steps;

use super::image::Image;
use super::layout::Layout;
use super::numbers::DONE;
use super::request::Request;
use super::walk::Walk;
use call::Call;
use order::Place;

/// What a rename answers: its number, the rows in the plan, and the counts of old's and new's walk.
#[derive(Clone, Copy, Debug, PartialEq, Eq)]
pub struct Answer {
    pub number: u8,
    pub rows: u8,
    pub steps: [u16; 2],
}

/// Answers for any bytes (rule 78). The plan changes only where the number is 0, and then in its first 648 bytes alone.
pub fn rename(bytes: &[u8], request: &Request, now: u64, plan: &mut [u8]) -> Answer {
    let image = Image::read(bytes);
    let call = Call::new(bytes, image.as_ref(), request, plan.len());
    let first = order::first(&call);
    let steps = counts(&call, first.map(|(place, _)| place));
    let number = first.map_or(DONE, |(_, refusal)| refusal.number);
    if number != DONE {
        return Answer { number, rows: 0, steps };
    }
    // Two names of one inode (rule 65) are done without a row.
    let planned = call.parts().filter(|_| first.is_none());
    let stores = planned.map_or(vec![], |parts| rows::stores(parts, now));
    if let Some(layout) = Layout::read(bytes) {
        rows::write(plan, &layout, &stores);
    }
    Answer { number, rows: stores.len() as u8, steps }
}

/// Rule 78: the walks that were taken by the time the answer was known.
fn counts(call: &Call, stopped_at: Option<Place>) -> [u16; 2] {
    let steps = |walk: Option<&Walk>| walk.map_or(0, |walk| walk.steps);
    match stopped_at {
        Some(place) if place < Place::OldWalk => [0, 0],
        Some(Place::OldWalk) => [steps(call.old()), 0],
        _ => [steps(call.old()), steps(call.new_walk())],
    }
}
