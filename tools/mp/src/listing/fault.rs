//! What is wrong with a listing, and where.

use std::fmt;

/// The first thing found wrong with a listing. Lines and columns count from 1, columns in bytes.
#[derive(Clone, Debug, PartialEq, Eq)]
pub struct Fault {
    pub line: usize,
    pub column: usize,
    pub sentence: String,
}

impl fmt::Display for Fault {
    fn fmt(&self, out: &mut fmt::Formatter) -> fmt::Result {
        write!(out, "line {}, column {}: {}", self.line, self.column, self.sentence)
    }
}

impl std::error::Error for Fault {}

/// A line and a column of a listing.
#[derive(Clone, Copy, Debug, PartialEq, Eq)]
pub struct Place {
    pub line: usize,
    pub column: usize,
}

impl Place {
    pub fn fault(self, sentence: impl Into<String>) -> Fault {
        Fault { line: self.line, column: self.column, sentence: readable(&sentence.into()) }
    }

    /// The place so many bytes to the right.
    pub fn right(self, bytes: usize) -> Place {
        Place { column: self.column + bytes, ..self }
    }
}

/// What a listing says, and where it says so.
#[derive(Clone, Copy, Debug, PartialEq, Eq)]
pub struct Given<T> {
    pub place: Place,
    pub value: T,
}

/// Puts down what a listing may say once.
pub fn give<T>(slot: &mut Option<Given<T>>, place: Place, what: &str, value: T) -> Result<(), Fault> {
    match slot {
        Some(_) => Err(place.fault(format!("there is a second {what} on this line"))),
        None => {
            *slot = Some(Given { place, value });
            Ok(())
        }
    }
}

/// The most letters of a sentence: it may repeat a word of the listing, and that may be of any length.
const LONGEST: usize = 400;

/// A sentence that a terminal can show: not endless, and with no control in it.
fn readable(sentence: &str) -> String {
    let mut out = String::new();
    for letter in sentence.chars().take(LONGEST) {
        match letter.is_control() {
            true => out.extend(letter.escape_unicode()),
            false => out.push(letter),
        }
    }
    if sentence.chars().nth(LONGEST).is_some() {
        out += "...";
    }
    out
}
