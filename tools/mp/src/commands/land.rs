//! `mp land`: one row, or some in an order drawn from a seed.

use super::{answer, tell, Command, Outcome};
use crate::arguments::{number, shown, valued, Arguments};
use crate::explore::{all_rows, report::counted, turns};
use crate::files;
use crate::random::Random;
use mirepillar::{Number, Plan, PLAN_BYTES, PLAN_ROWS};
use std::path::Path;

pub const COMMAND: Command = Command {
    name: "land",
    words: "IMAGE PLAN ROW",
    further: "--seed N IMAGE PLAN",
    about: "lands a row of a plan",
    text: "Prints one number, and rewrites IMAGE where it is 0: the row, counted from 0, has landed.\n\n\
           With --seed N it is the store that may do anything it is permitted to: it lands rows in an order drawn from the\n\
           seed, each in its turn, and stops after a drawn number of rows, as if the power were cut. It prints the number and\n\
           then the rows in the order in which they landed. The same seed does the same.",
    example: "$ mp land tree.img plan 0\n0\n$ mp land --seed 7 tree.img plan\n0 0 1 5 3",
    options: &[&[valued("--seed", "number")]],
    run,
};

fn run(arguments: &Arguments) -> Outcome {
    if arguments.has("--seed") {
        return drawn(arguments);
    }
    let [path, plan, row] = arguments.words(["IMAGE", "PLAN", "ROW"])?;
    let row = number(row).ok_or_else(|| format!("ROW is no number below 2^64: {}", shown(row)))?;
    let plan = files::read(Path::new(plan))?;
    let mut image = files::read(Path::new(path))?;
    let answered = mirepillar::land(&mut image, &plan, row);
    if answered.is_done() {
        files::write(Path::new(path), &image)?;
    }
    answer(answered, &[])
}

fn drawn(arguments: &Arguments) -> Outcome {
    let [path, plan] = arguments.words(["IMAGE", "PLAN"])?;
    let seed = arguments.number("--seed", 0)?;
    let plan = files::read(Path::new(plan))?;
    let mut image = files::read(Path::new(path))?;
    let refused = refused(&image, &plan);
    if !refused.is_done() {
        return answer(refused, &[]);
    }
    let landed = land_some(&mut image, &plan, seed);
    if !landed.is_empty() {
        files::write(Path::new(path), &image)?;
    }
    tell(&format!("{} of {} landed", landed.len(), counted(row_count(&plan), "row", "rows")));
    answer(Number::DONE, &landed)
}

/// How many rows a plan has: they end at the first header that is all zero.
fn row_count(plan: &[u8]) -> usize {
    plan.chunks_exact(8).take(PLAN_ROWS).take_while(|header| header.iter().any(|&byte| byte != 0)).count()
}

/// Why some row of a plan cannot land on an image, or 0. Of a plan without rows only the buffer and the layout are asked.
fn refused(image: &[u8], plan: &[u8]) -> Number {
    let land = |row: usize| mirepillar::land(&mut image.to_vec(), plan, row as u64);
    match row_count(plan) {
        0 if land(0) == Number::BAD_ROW => Number::DONE,
        count => (0..count.max(1)).map(land).find(|answered| !answered.is_done()).unwrap_or(Number::DONE),
    }
}

/// Lands rows in a permitted order until a drawn number has landed. Every row can.
fn land_some(image: &mut [u8], plan: &[u8], seed: u64) -> Vec<usize> {
    let mut random = Random::new(seed);
    let rows: Plan = plan.get(..PLAN_BYTES).and_then(|bytes| bytes.try_into().ok()).map_or(Plan::EMPTY, Plan);
    let mut waiting = all_rows(&rows);
    let mut landed = Vec::new();
    let count = random.below(waiting.count_ones() as usize + 1);
    while landed.len() < count {
        let row = *random.pick(&turns(&rows, waiting));
        mirepillar::land(image, plan, row as u64);
        waiting &= !(1 << row);
        landed.push(row);
    }
    landed
}
