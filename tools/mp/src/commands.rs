//! The commands of `mp`: their table, and how one of them is found, run and answered.

mod asked;
pub mod bench;
mod check;
mod demo;
mod explore;
mod help;
mod land;
mod make;
mod rename;
mod repair;
mod soak;
mod tree;

use crate::arguments::{shown, Arguments, Known};
use crate::explore::Exploration;
use crate::output;
use mirepillar::{Number, Renamed};
use std::ffi::{OsStr, OsString};
use std::io::Write;
use std::process::ExitCode;

/// A command: its name, the words behind it, another way to give it, what it does, and one example.
pub struct Command {
    pub name: &'static str,
    pub words: &'static str,
    /// Empty where there is no other way.
    pub further: &'static str,
    pub about: &'static str,
    pub text: &'static str,
    pub example: &'static str,
    pub options: &'static [&'static [Known]],
    pub run: fn(&Arguments) -> Outcome,
}

/// How a command went: done or refused by a job's number; or a sentence about a file or an argument.
pub type Outcome = Result<Verdict, String>;

/// Whether a job, or what was explored, said yes.
#[derive(Clone, Copy, Debug, PartialEq, Eq)]
pub enum Verdict {
    Done,
    Refused,
}

/// In the order in which they are told.
pub const COMMANDS: [&Command; 9] = [
    &check::COMMAND,
    &rename::COMMAND,
    &land::COMMAND,
    &repair::COMMAND,
    &tree::COMMAND,
    &make::COMMAND,
    &explore::COMMAND,
    &demo::COMMAND,
    &soak::COMMAND,
];

/// The exit statuses: 0 done, 1 refused by a job or not survived, 2 a file or an argument is at fault.
pub fn main(mut words: Vec<OsString>) -> ExitCode {
    let outcome = if output::was_closed() {
        Err("standard output is closed, so nothing was done".to_string())
    } else if words.is_empty() {
        help::all()
    } else {
        let name = words.remove(0);
        run(&name.to_string_lossy(), words)
    };
    match outcome {
        Ok(Verdict::Done) => ExitCode::SUCCESS,
        Ok(Verdict::Refused) => ExitCode::from(1),
        Err(sentence) => {
            tell(&format!("mp: {sentence}"));
            ExitCode::from(2)
        }
    }
}

fn run(name: &str, words: Vec<OsString>) -> Outcome {
    if ["help", "--help", "-h"].contains(&name) {
        return help::help(&Arguments::read(words, &[])?);
    }
    if name == "--version" {
        return print(concat!("mp ", env!("CARGO_PKG_VERSION"))).map(|()| Verdict::Done);
    }
    let command = find(name)?;
    if words.iter().any(|word| word == "--help") {
        return help::of(command);
    }
    (command.run)(&Arguments::read(words, command.options)?)
}

pub fn find(name: &str) -> Result<&'static Command, String> {
    let found = COMMANDS.into_iter().find(|command| command.name == name);
    found.ok_or_else(|| format!("there is no command {}; `mp help` lists them", shown(OsStr::new(name))))
}

/// Prints a line, or several, on standard output.
pub fn print(text: &str) -> Result<(), String> {
    let mut out = std::io::stdout().lock();
    let printed = out.write_all(text.as_bytes()).and_then(|()| out.write_all(b"\n")).and_then(|()| out.flush());
    printed.map_err(|error| format!("standard output cannot be written: {error}"))
}

/// Prints a line on standard error. If even that is closed, the exit status is all that is left.
pub fn tell(text: &str) {
    let _ = writeln!(std::io::stderr(), "{text}");
}

/// Prints a job's answer: its numbers on standard output, and the first one's meaning on standard error.
pub fn answer(number: Number, further: &[usize]) -> Outcome {
    let words: Vec<String> =
        std::iter::once(usize::from(number.0)).chain(further.iter().copied()).map(|word| word.to_string()).collect();
    print(&words.join(" "))?;
    tell(&number.to_string());
    Ok(verdict(number))
}

pub fn verdict(number: Number) -> Verdict {
    match number.is_done() {
        true => Verdict::Done,
        false => Verdict::Refused,
    }
}

/// Prints a rename's answer: the number, the rows and both counts.
fn answer_renamed(answered: Renamed) -> Outcome {
    answer(answered.number, &[answered.rows, answered.old_steps.into(), answered.new_steps.into()])
}

fn survived(found: &Exploration) -> Verdict {
    match found.breaches.is_empty() {
        true => Verdict::Done,
        false => Verdict::Refused,
    }
}
