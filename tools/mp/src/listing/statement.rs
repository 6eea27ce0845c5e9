//! What one line of a listing says.

use super::attributes::{number, record, Attributes};
use super::fault::{Fault, Given, Place};
use super::operands::{operands, Operands};
use super::words::Word;
use crate::image::{kind, Section};

type Path = Given<Vec<u8>>;

/// A line that has been read by itself; whether it goes with the others is not asked yet.
#[derive(Clone, Debug)]
pub enum Statement {
    Inode(Box<InodeLine>),
    Name(NameLine),
    Handle(HandleLine),
    /// How many records of a section there are in all.
    Count(Section, Given<usize>),
    /// That the journal record is clear, as it is in every image made from a listing.
    Clear,
}

/// An inode with its first name.
#[derive(Clone, Debug)]
pub struct InodeLine {
    pub place: Place,
    pub kind: u8,
    pub path: Path,
    pub attributes: Attributes,
    /// Of a symlink; else empty.
    pub text: Vec<u8>,
}

/// A further name of a file or a symlink.
#[derive(Clone, Debug)]
pub struct NameLine {
    pub path: Path,
    pub slot: Option<Given<u16>>,
    pub existing: Path,
}

#[derive(Clone, Debug)]
pub struct HandleLine {
    pub number: Given<u16>,
    pub state: u8,
    /// Of an open handle alone.
    pub path: Option<Path>,
}

/// The words of the states of handles, by their numbers.
pub const STATES: [&str; 3] = ["closed", "open", "search"];

/// The word of a section in a listing: that of the line which counts its records.
pub fn plural(section: Section) -> &'static str {
    ["inodes", "entries", "texts", "handles", "journal"][section as usize]
}

/// Reads a line by its first word.
pub fn statement(first: &Word, rest: &[Word]) -> Result<Statement, Fault> {
    match first.plain() {
        Some("dir") => inode_line(kind::DIRECTORY, first, rest),
        Some("file") => inode_line(kind::FILE, first, rest),
        Some("link") => inode_line(kind::SYMLINK, first, rest),
        Some("name") => name_line(first, rest),
        Some("handle") => handle_line(first, rest),
        Some("inodes") => count(Section::Inodes, first, rest),
        Some("entries") => count(Section::Entries, first, rest),
        Some("texts") => count(Section::Texts, first, rest),
        Some("handles") => count(Section::Handles, first, rest),
        Some("journal") => journal(first, rest),
        Some("lost" | "stray" | "free") => Err(first.fault(format!(
            "an image made from a listing is sound, and a {} line tells of one that is not",
            first.shown()
        ))),
        _ => Err(first.fault(format!(
            "unknown word {}; a line begins with dir, file, link, name, handle, inodes, entries, texts, handles or journal",
            first.shown()
        ))),
    }
}

fn inode_line(kind: u8, first: &Word, rest: &[Word]) -> Result<Statement, Fault> {
    let refused: &[&str] = if kind == kind::SYMLINK { &[] } else { &["text"] };
    let Operands { path, attributes, text, existing } = operands(first, rest, refused)?;
    if let Some(existing) = existing {
        return Err(existing.place.fault(format!("only a name line has = and a path, not a {} line", first.shown())));
    }
    let text = match (kind == kind::SYMLINK, text) {
        (true, Some(text)) => checked_text(text)?,
        (true, None) => return Err(first.fault("a link line needs -> and a text behind its path")),
        (false, Some(text)) => return Err(text.place.fault("only a link line has -> and a text")),
        (false, None) => Vec::new(),
    };
    Ok(Statement::Inode(Box::new(InodeLine { place: first.place, kind, path, attributes, text })))
}

fn checked_text(text: Path) -> Result<Vec<u8>, Fault> {
    match text.value.len() {
        0 => Err(text.place.fault("the text of a symlink cannot be empty")),
        1..=63 => Ok(text.value),
        length => Err(text.place.fault(format!("a text of {length} bytes is too long; 63 are the most"))),
    }
}

fn name_line(first: &Word, rest: &[Word]) -> Result<Statement, Fault> {
    let refused = ["mode", "owner", "fs", "links", "modified", "changed", "inode", "text"];
    let Operands { path, attributes, text, existing } = operands(first, rest, &refused)?;
    if let Some(text) = text {
        return Err(text.place.fault("only a link line has -> and a text"));
    }
    let existing = existing.ok_or_else(|| first.fault("a name line needs = and a listed path behind its own"))?;
    Ok(Statement::Name(NameLine { path, slot: attributes.slot, existing }))
}

fn handle_line(first: &Word, rest: &[Word]) -> Result<Statement, Fault> {
    let form = "a handle line is `handle NUMBER open PATH`, the same with search, or `handle NUMBER closed`";
    let [digits, state, rest @ ..] = rest else {
        return Err(first.fault(form));
    };
    let value = record(&digits.shown(), digits.place, Section::Handles)?;
    let Some(number) = STATES.iter().position(|&word| state.plain() == Some(word)) else {
        return Err(state.fault(format!("unknown state {}; a handle is open, search or closed", state.shown())));
    };
    let path = match (number, rest) {
        (0, []) => None,
        (0, [word, ..]) => return Err(word.fault("a closed handle has no path")),
        (_, [path]) => Some(path.given()),
        _ => return Err(first.fault(form)),
    };
    let number_given = Given { place: digits.place, value };
    Ok(Statement::Handle(HandleLine { number: number_given, state: number as u8, path }))
}

fn count(section: Section, first: &Word, rest: &[Word]) -> Result<Statement, Fault> {
    let [word] = rest else {
        return Err(first.fault(format!("a line {0} has one number, as in {0} 8", plural(section))));
    };
    let (least, most) = section.counts();
    let value = number(&word.shown(), word.place, most as u64)? as usize;
    match value < least {
        true => Err(word.fault("there is no image without an inode; the root is one")),
        false => Ok(Statement::Count(section, Given { place: first.place, value })),
    }
}

fn journal(first: &Word, rest: &[Word]) -> Result<Statement, Fault> {
    match rest {
        [word] if word.plain() == Some("clear") => Ok(Statement::Clear),
        _ => Err(first.fault("an image made from a listing is sound, so its journal record can only be clear")),
    }
}
