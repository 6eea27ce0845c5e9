//! `mp soak`.

use super::{print, tell, Command, Outcome, Verdict};
use crate::arguments::{valued, Arguments};
use crate::explore::{report, PROVED};
use crate::random::Random;
use crate::soak::{one_image, Tally};
use std::path::Path;
use std::time::{Duration, Instant};

pub const COMMAND: Command = Command {
    name: "soak",
    words: "[--seconds S] [--seed N] [--images N]",
    further: "",
    about: "explores random renames",
    text: "Makes random sound images and renames, and explores each rename that is not refused, for S seconds (10) or N images,\n\
           whichever comes first. The same seed (1) gives the same images and renames. At the first breach it writes the image\n\
           and the request into the folder it is run in, prints the command line that shows it again, and stops.",
    example: "$ mp soak --seconds 60 --seed 7",
    options: &[&[valued("--seconds", "number"), valued("--seed", "number"), valued("--images", "number")]],
    run,
};

fn run(arguments: &Arguments) -> Outcome {
    let [] = arguments.words([])?;
    let time = Duration::from_secs(arguments.number("--seconds", 10)?);
    let most = arguments.number("--images", usize::MAX)?;
    let seed = arguments.number("--seed", 1)?;
    let (mut random, mut tally) = (Random::new(seed), Tally::default());
    let began = Instant::now();
    let mut told = began;
    while began.elapsed() < time && tally.images < most {
        if let Some(breach) = one_image(&mut random, PROVED, &mut tally) {
            print(&report::report(&breach.found).join("\n"))?;
            print(&breach.store(Path::new(""), seed)?)?;
            print(&line(&tally, 1))?;
            return Ok(Verdict::Refused);
        }
        if told.elapsed() >= Duration::from_secs(1) {
            told = Instant::now();
            tell(&format!("{} s: {}", began.elapsed().as_secs(), line(&tally, 0)));
        }
    }
    print(&line(&tally, 0))?;
    Ok(Verdict::Done)
}

fn line(tally: &Tally, breaches: usize) -> String {
    let Tally { images, asked, renames, exchanges, states } = tally;
    let breaches = report::counted(breaches, "breach", "breaches");
    format!("{images} images, {asked} calls, {renames} renames and {exchanges} exchanges explored, {states} states, {breaches}")
}
