//! Times the jobs of the proved library's archive against the plain program's, on the same images and requests.
//!
//! The table goes to standard output; it, the growth and the verdicts go to `times.md`, and a picture to `times.svg`, in
//! the folder that is the only argument.

mod clock;
mod jobs;
mod library;

use clock::processor_seconds;
use jobs::Outcome;
use mirepillar_reference::bench::images::{all, Measured, TYPICAL};
use mirepillar_reference::bench::plot::plot;
use mirepillar_reference::bench::report::{growth, verdicts, Line, TABLE_HEAD};
use mirepillar_reference::bench::requests::{exchanges, planned, renames, RENAMES};
use mirepillar_reference::bench::times::{medians, FEWEST, MOST};
use mirepillar_reference::cases::trees::builder::Tree;
use mirepillar_reference::explore::PlannedRename;
use mirepillar_reference::model;
use mirepillar_reference::model::request::Request;
use std::hint::black_box;
use std::path::Path;
use std::process::ExitCode;

/// The jobs, as the lines name them.
const CHECK: &str = "check";
const RENAME: &str = "rename";
const EXCHANGE: &str = "exchange";
const LAND: &str = "land, one row";
const NOTHING: &str = "repair, nothing";
const TAKEN_BACK: &str = "repair, taken back";
const FINISHED: &str = "repair, finished";
const EXCHANGE_FINISHED: &str = "repair, exchange finished";

const JOBS: [&str; 8] = [CHECK, RENAME, EXCHANGE, LAND, NOTHING, TAKEN_BACK, FINISHED, EXCHANGE_FINISHED];

/// The first of the requests, with its plan.
fn first(name: &str, tree: &Tree, requests: &[Request]) -> Result<PlannedRename, String> {
    let planned = requests.first().and_then(|request| planned(tree, request));
    planned.ok_or_else(|| format!("no rename or no exchange on this image has rows: {name}"))
}

/// All jobs on one image. The crashes are those of its first rename, ahead of the new name and behind it, and of its first
/// exchange behind the journal record; the rows that land are that rename's.
fn lines(Measured { name, tree }: &Measured) -> Result<Vec<Line>, String> {
    let (image, renames, exchanges) = (tree.encode(), renames(tree), exchanges(tree));
    let (rename, exchange) = (first(name, tree, &renames)?, first(name, tree, &exchanges)?);
    let line = |job: &'static str, outcome: Outcome| -> Result<Line, String> {
        let [library, plain] = outcome.map_err(|sentence| format!("{job}, {name}: {sentence}"))?;
        let line = Line { job, image: name, bytes: image.len(), library, plain };
        println!("{}", line.row());
        Ok(line)
    };
    Ok(vec![
        line(CHECK, jobs::check(&image))?,
        line(RENAME, jobs::rename(&image, &renames))?,
        line(EXCHANGE, jobs::rename(&image, &exchanges))?,
        line(LAND, jobs::land(&image, &rename.plan, rename.rows))?,
        line(NOTHING, jobs::repair(&image))?,
        line(TAKEN_BACK, jobs::repair(&rename.after([0])))?,
        line(FINISHED, jobs::repair(&rename.after([0, 1])))?,
        line(EXCHANGE_FINISHED, jobs::repair(&exchange.after([0])))?,
    ])
}

/// The model's time, by which earlier tables went.
fn models_check(image: &[u8]) -> String {
    let mut check = |calls| {
        for _ in 0..calls {
            black_box(model::check::check(black_box(image)));
        }
    };
    let [time] = medians(processor_seconds, [&mut check], None);
    format!("The model's check takes {time:.2} µs on the typical image.")
}

/// How the times were taken.
fn preface() -> String {
    format!(
        "Optimised builds in one process, the library and the plain program in turn: {FEWEST} to {MOST} batches of each, \
         and the median batch, in processor time. A batch of renames or exchanges is {RENAMES} different requests on one image, each with \
         rows (the bench tree has fewer, which are repeated). Rows land one after the other, and again; the time is that \
         of one row. Buffers are warm: they stay where they are, and still hold the plan and the scratch of the call \
         before.\n"
    )
}

fn write(folder: &Path, name: &str, content: &str) -> Result<(), String> {
    let path = folder.join(name);
    std::fs::write(&path, content).map_err(|error| format!("{} cannot be written: {error}", path.display()))
}

fn run(folder: &Path) -> Result<(), String> {
    println!("{}\n{TABLE_HEAD}", preface());
    let images = all();
    let mut table = vec![];
    for image in &images {
        table.extend(lines(image)?);
    }
    let typical = images.iter().filter(|image| image.name == TYPICAL);
    let model: Vec<_> = typical.map(|image| models_check(&image.tree.encode())).collect();
    let told = format!("\n{}\n\n{}\n{}", growth(&JOBS, &table), model.join("\n"), verdicts(&table));
    println!("{told}");
    let rows: Vec<_> = table.iter().map(Line::row).collect();
    write(folder, "times.md", &format!("{}\n{TABLE_HEAD}\n{}\n{told}\n", preface(), rows.join("\n")))?;
    let panels = [
        ("check", CHECK),
        ("rename", RENAME),
        ("land (one row of a plan)", LAND),
        ("repair (that finishes a rename)", FINISHED),
    ];
    write(folder, "times.svg", &plot(panels, &table))
}

fn main() -> ExitCode {
    let folder = std::env::args_os().nth(1);
    let done = match &folder {
        Some(folder) => run(Path::new(folder)),
        None => Err("the only argument is the folder for times.md and times.svg".to_string()),
    };
    match done {
        Ok(()) => ExitCode::SUCCESS,
        Err(sentence) => {
            eprintln!("bench: {sentence}");
            ExitCode::from(1)
        }
    }
}
