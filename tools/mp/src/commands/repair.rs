//! `mp repair`.

use super::{answer, Command, Outcome};
use crate::arguments::Arguments;
use crate::files::{self, Staged};
use mirepillar::Plan;
use std::path::Path;

pub const COMMAND: Command = Command {
    name: "repair",
    words: "IMAGE PLAN SCRATCH",
    further: "",
    about: "plans a repair after a power cut",
    text: "Prints two numbers: the answer and the plan's rows. Where the answer is 0 it makes PLAN, of 648 bytes, and SCRATCH,\n\
           the image as it will be once every row has landed; otherwise no file is made or changed. The image is only read:\n\
           mp land lands the plan's rows.",
    example: "$ mp repair tree.img plan scratch.img\n0 7",
    options: &[],
    run,
};

fn run(arguments: &Arguments) -> Outcome {
    let [image, plan, scratch] = arguments.words(["IMAGE", "PLAN", "SCRATCH"])?;
    let [image, plan, scratch] = [image, plan, scratch].map(Path::new);
    files::all_different(&[("PLAN", plan), ("SCRATCH", scratch)], &[("IMAGE", image)])?;
    let image = files::read(image)?;
    let (mut planned, mut outcome) = (Plan::EMPTY, vec![0; image.len()]);
    let answered = mirepillar::repair(&image, &mut planned.0, &mut outcome);
    if answered.number.is_done() {
        let plan = Staged::write(plan, &planned.0)?;
        let scratch = Staged::write(scratch, &outcome)?;
        plan.place()?;
        scratch.place()?;
    }
    answer(answered.number, &[answered.rows])
}
