//! The words behind `dir`, `file`, `link` and `name`: attributes in any order, a path, and what it leads to.

use super::attributes::Attributes;
use super::fault::{give, Fault, Given};
use super::words::Word;

type Path = Given<Vec<u8>>;

/// What such a line says.
#[derive(Clone, Debug)]
pub struct Operands {
    pub path: Path,
    pub attributes: Attributes,
    /// What stands behind `->`: the text of a symlink.
    pub text: Option<Path>,
    /// What stands behind `=`: a path that is listed already.
    pub existing: Option<Path>,
}

/// Reads the words behind the first, which is `first`. `refused` are the attributes that this kind of line does not have.
pub fn operands(first: &Word, rest: &[Word], refused: &[&str]) -> Result<Operands, Fault> {
    let line = first.shown();
    let mut attributes = Attributes::default();
    let (mut path, mut text, mut existing) = (None, None, None);
    let mut words = rest.iter();
    while let Some(word) = words.next() {
        match word.plain() {
            Some("->") => give(&mut text, word.place, "->", behind(word, words.next())?)?,
            Some("=") => give(&mut existing, word.place, "=", behind(word, words.next())?)?,
            Some(other) if !other.starts_with('/') => attributes.take(word, &line, refused)?,
            _ => give(&mut path, word.place, "path", word.bytes().to_vec())?,
        }
    }
    let path = path.ok_or_else(|| first.fault(format!("a {line} line needs a path")))?;
    Ok(Operands { path, attributes, text: text.map(|given| given.value), existing: existing.map(|given| given.value) })
}

fn behind(sign: &Word, word: Option<&Word>) -> Result<Path, Fault> {
    word.map(Word::given).ok_or_else(|| sign.fault(format!("nothing stands behind {}", sign.shown())))
}
