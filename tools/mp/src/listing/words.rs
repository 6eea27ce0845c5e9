//! A line of a listing as words.

use super::fault::{Fault, Given, Place};
use super::quoting::{text, unquote, NO_ZERO};

/// A word: what stands between spaces, or what stands in quotes.
#[derive(Clone, Debug, PartialEq, Eq)]
pub struct Word {
    pub place: Place,
    kind: Kind,
}

#[derive(Clone, Debug, PartialEq, Eq)]
enum Kind {
    Plain(String),
    Quoted(Vec<u8>),
}

impl Word {
    /// The word, if it is not in quotes.
    pub fn plain(&self) -> Option<&str> {
        match &self.kind {
            Kind::Plain(word) => Some(word),
            Kind::Quoted(_) => None,
        }
    }

    pub fn bytes(&self) -> &[u8] {
        match &self.kind {
            Kind::Plain(word) => word.as_bytes(),
            Kind::Quoted(bytes) => bytes,
        }
    }

    /// The bytes of a path or a text, with their place.
    pub fn given(&self) -> Given<Vec<u8>> {
        Given { place: self.place, value: self.bytes().to_vec() }
    }

    /// The word as a fault shows it.
    pub fn shown(&self) -> String {
        match &self.kind {
            Kind::Plain(word) => word.clone(),
            Kind::Quoted(bytes) => text(bytes),
        }
    }

    pub fn fault(&self, sentence: impl Into<String>) -> Fault {
        self.place.fault(sentence)
    }
}

fn is_blank(byte: u8) -> bool {
    byte == b' ' || byte == b'\t'
}

/// The words of a line up to a comment, which is a word that begins with `#`.
pub fn words(line: &[u8], number: usize) -> Result<Vec<Word>, Fault> {
    let mut words = Vec::new();
    let mut at = 0;
    loop {
        at += line[at..].iter().take_while(|&&byte| is_blank(byte)).count();
        let place = Place { line: number, column: at + 1 };
        let (kind, length) = match line.get(at) {
            None | Some(b'#') => return Ok(words),
            Some(b'"') => quoted(&line[at..], place)?,
            Some(_) => plain(&line[at..], place)?,
        };
        words.push(Word { place, kind });
        at += length;
    }
}

fn quoted(line: &[u8], place: Place) -> Result<(Kind, usize), Fault> {
    let (bytes, length) = unquote(line, place)?;
    match line.get(length) {
        Some(&byte) if !is_blank(byte) => Err(place.right(length).fault("a space has to follow the quote")),
        _ => Ok((Kind::Quoted(bytes), length)),
    }
}

fn plain(line: &[u8], place: Place) -> Result<(Kind, usize), Fault> {
    let length = line.iter().take_while(|&&byte| !is_blank(byte)).count();
    let bytes = &line[..length];
    if let Some(at) = bytes.iter().position(|&byte| byte.is_ascii_control() || byte == b'"' || byte == b'\\') {
        return Err(place.right(at).fault(match bytes[at] {
            b'"' => "a quote inside a word; put all of the path in quotes".to_owned(),
            b'\\' => "a backslash outside of quotes; put all of the path in quotes".to_owned(),
            0 => NO_ZERO.to_owned(),
            byte => format!("the byte \\x{byte:02x} outside of quotes; write it so, in quotes"),
        }));
    }
    match std::str::from_utf8(bytes) {
        Ok(word) => Ok((Kind::Plain(word.to_owned()), length)),
        Err(error) => {
            let at = error.valid_up_to();
            Err(place.right(at).fault(format!("\\x{:02x} is no UTF-8; write it so, in quotes", bytes[at])))
        }
    }
}
