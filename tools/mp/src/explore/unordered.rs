//! What a plan's rows could leave if nothing kept their groups apart: any of them landed, and any not.

use super::names::{names, Names};
use super::search::landed_whole;
use super::{all_rows, Call, Jobs};
use mirepillar::{Number, Plan};

/// What repair makes of the images that any set of a plan's rows leaves.
#[derive(Clone, Debug, Default, PartialEq, Eq)]
pub struct Unordered {
    pub images: usize,
    /// Repaired to the image before, or to the finished one.
    pub good: usize,
    /// Repaired, but to something else.
    pub otherwise: usize,
    /// Not repairable.
    pub refused: usize,
    /// The moved file has neither its old name nor the new one in them.
    pub nameless: usize,
    /// A smallest set of rows after which that is so, if there is one.
    pub loses: Option<Vec<usize>>,
}

/// Tries every set of rows of a call's plan.
pub fn unordered(call: &Call, jobs: Jobs) -> Unordered {
    let finished = landed_whole(&call.before, &call.plan, jobs);
    let mut sets: Vec<u16> = (0..=all_rows(&call.plan)).collect();
    sets.sort_by_key(|set| (set.count_ones(), *set));
    let mut all = Unordered::default();
    for set in sets {
        all.take_in(call, &finished, jobs, set);
    }
    all
}

impl Unordered {
    fn take_in(&mut self, call: &Call, finished: &[u8], jobs: Jobs, set: u16) {
        let rows: Vec<usize> = (0..16).filter(|row| set >> row & 1 == 1).collect();
        let mut image = call.before.clone();
        for &row in &rows {
            (jobs.land)(&mut image, &call.plan.0, row as u64);
        }
        self.images += 1;
        let (mut plan, mut scratch) = (Plan::EMPTY, vec![0; image.len()]);
        match (jobs.repair)(&image, &mut plan.0, &mut scratch).number {
            Number::DONE if scratch == call.before || scratch == finished => self.good += 1,
            Number::DONE => self.otherwise += 1,
            _ => self.refused += 1,
        }
        if matches!(names(call, &image), Names::Lost | Names::Neither) {
            self.nameless += 1;
            self.loses.get_or_insert(rows);
        }
    }
}
