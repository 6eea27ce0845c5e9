//! Each job on one image, by both programs: first their answers, which have to be the same, and then their times.

use crate::clock::processor_seconds;
use crate::library::{Jobs, LIBRARY, PLAIN};
use mirepillar_reference::bench::requests::RENAMES;
use mirepillar_reference::bench::times::medians;
use mirepillar_reference::model::plan::PLAN_LEN;
use mirepillar_reference::model::request::Request;
use std::hint::black_box;

/// Microseconds of the library and of the plain program; or what they answer where that is not the same.
pub type Outcome = Result<[f64; 2], String>;

/// What a buffer holds before the first call.
const DIRT: u8 = 0xa5;

fn same([library, plain]: [u64; 2], buffers_are: bool) -> Result<(), String> {
    if library != plain {
        return Err(format!("the library answers {library}, and the plain program {plain}"));
    }
    match buffers_are {
        true => Ok(()),
        false => Err(format!("both answer {library}, but they leave different buffers")),
    }
}

pub fn check(image: &[u8]) -> Outcome {
    same([(LIBRARY.check)(image), (PLAIN.check)(image)], true)?;
    let batch = |jobs: Jobs| {
        move |calls| {
            for _ in 0..calls {
                black_box((jobs.check)(black_box(image)));
            }
        }
    };
    Ok(medians(processor_seconds, [&mut batch(LIBRARY), &mut batch(PLAIN)], None))
}

/// All the requests in their order, and again where they are fewer than a batch. The buffer holds the plan before.
pub fn rename(image: &[u8], requests: &[Request]) -> Outcome {
    let [mut plan, mut other] = [vec![DIRT; PLAN_LEN], vec![DIRT; PLAN_LEN]];
    for request in requests {
        let answers = [(LIBRARY.rename)(image, request, &mut plan), (PLAIN.rename)(image, request, &mut other)];
        same(answers, plan == other)?;
    }
    let batch = |jobs: Jobs| {
        let mut plan = vec![DIRT; PLAN_LEN];
        move |calls| {
            for request in requests.iter().cycle().take(calls) {
                black_box((jobs.rename)(black_box(image), black_box(request), black_box(&mut plan)));
            }
        }
    };
    Ok(medians(processor_seconds, [&mut batch(LIBRARY), &mut batch(PLAIN)], Some(RENAMES)))
}

/// One row after the other, in the order of the plan and then again: a row that has landed lands as it did before. What
/// is timed is one landing, on average over the rows.
pub fn land(image: &[u8], plan: &[u8], rows: u8) -> Outcome {
    let [mut one, mut other] = [image.to_vec(), image.to_vec()];
    for row in 0..rows.into() {
        same([(LIBRARY.land)(&mut one, plan, row), (PLAIN.land)(&mut other, plan, row)], one == other)?;
    }
    let batch = |jobs: Jobs| {
        let mut image = image.to_vec();
        move |calls| {
            for row in (0..u64::from(rows)).cycle().take(calls) {
                black_box((jobs.land)(black_box(&mut image), black_box(plan), black_box(row)));
            }
        }
    };
    Ok(medians(processor_seconds, [&mut batch(LIBRARY), &mut batch(PLAIN)], None))
}

/// The buffers still hold what the repair before has left.
pub fn repair(image: &[u8]) -> Outcome {
    let buffers = || (vec![DIRT; PLAN_LEN], vec![DIRT; image.len()]);
    let [mut one, mut other] = [buffers(), buffers()];
    let answers = [(LIBRARY.repair)(image, &mut one.0, &mut one.1), (PLAIN.repair)(image, &mut other.0, &mut other.1)];
    same(answers, one == other)?;
    let batch = |jobs: Jobs| {
        let (mut plan, mut scratch) = buffers();
        move |calls| {
            for _ in 0..calls {
                black_box((jobs.repair)(black_box(image), black_box(&mut plan), black_box(&mut scratch)));
            }
        }
    };
    Ok(medians(processor_seconds, [&mut batch(LIBRARY), &mut batch(PLAIN)], None))
}
