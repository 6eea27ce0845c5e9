//! The words of a command line: options with and without a value, and the rest in their order.

use std::collections::BTreeMap;
use std::ffi::{OsStr, OsString};
use std::os::unix::ffi::OsStrExt;
use std::path::Path;
use std::str::FromStr;

/// An option that a command knows, and what its value is called if it takes one.
#[derive(Clone, Copy, Debug)]
pub struct Known {
    pub name: &'static str,
    pub value: Option<&'static str>,
}

/// An option without a value.
pub const fn switch(name: &'static str) -> Known {
    Known { name, value: None }
}

/// An option with a value.
pub const fn valued(name: &'static str, value: &'static str) -> Known {
    Known { name, value: Some(value) }
}

/// The words of one command, sorted out.
#[derive(Debug, Default)]
pub struct Arguments {
    options: BTreeMap<&'static str, OsString>,
    words: Vec<OsString>,
}

impl Arguments {
    /// Sorts words out; an option that is unknown, given twice or lacks its value is a sentence. Behind `--` stand no options.
    pub fn read(words: Vec<OsString>, known: &[&[Known]]) -> Result<Arguments, String> {
        let known: Vec<Known> = known.concat();
        let mut arguments = Arguments::default();
        let mut words = words.into_iter();
        let mut options_end = false;
        while let Some(word) = words.next() {
            if !options_end && word == "--" {
                options_end = true;
            } else if options_end || !word.as_bytes().starts_with(b"--") {
                arguments.words.push(word);
            } else {
                arguments.option(&word, &mut words, &known)?;
            }
        }
        Ok(arguments)
    }

    /// Takes in an option, written `--name`, `--name VALUE` or `--name=VALUE`.
    fn option(
        &mut self,
        word: &OsStr,
        rest: &mut impl Iterator<Item = OsString>,
        known: &[Known],
    ) -> Result<(), String> {
        let bytes = word.as_bytes();
        let (name, joined) = match bytes.iter().position(|&byte| byte == b'=') {
            Some(at) => (&bytes[..at], Some(OsStr::from_bytes(&bytes[at + 1..]).to_os_string())),
            None => (bytes, None),
        };
        let shown = String::from_utf8_lossy(name).into_owned();
        let option = known
            .iter()
            .find(|option| option.name.as_bytes() == name)
            .ok_or_else(|| format!("there is no option {shown} here"))?;
        let value = match (option.value, joined) {
            (None, None) => OsString::new(),
            (None, Some(_)) => return Err(format!("option {shown} takes no value")),
            (Some(_), Some(value)) => value,
            (Some(called), None) => rest.next().ok_or_else(|| format!("option {shown} lacks its {called}"))?,
        };
        match self.options.insert(option.name, value) {
            None => Ok(()),
            Some(_) => Err(format!("option {shown} is given twice")),
        }
    }

    pub fn has(&self, name: &str) -> bool {
        self.options.contains_key(name)
    }

    /// The value of an option as a path.
    pub fn path(&self, name: &str) -> Option<&Path> {
        self.options.get(name).map(Path::new)
    }

    /// The value of an option as a number, or what holds without it.
    pub fn number<T: FromStr>(&self, name: &str, otherwise: T) -> Result<T, String> {
        match self.options.get(name) {
            None => Ok(otherwise),
            Some(value) => number(value).ok_or_else(|| not_a_number(name, value)),
        }
    }

    /// The value of an option as numbers between commas.
    pub fn numbers<T: FromStr>(&self, name: &str) -> Result<Vec<T>, String> {
        let Some(value) = self.options.get(name) else { return Ok(Vec::new()) };
        let wrong = || format!("option {name} wants numbers with commas between them, and got {}", shown(value));
        let words = value.to_str().ok_or_else(wrong)?.split(',');
        words.map(|word| number(OsStr::new(word)).ok_or_else(wrong)).collect()
    }

    /// All words, if there are as many as there are names for them.
    pub fn words<const N: usize>(&self, names: [&str; N]) -> Result<[&OsStr; N], String> {
        let words = self.list(&names)?;
        Ok(std::array::from_fn(|at| words[at]))
    }

    /// The same for a number of names that is not known beforehand.
    pub fn list(&self, names: &[&str]) -> Result<Vec<&OsStr>, String> {
        if let Some(name) = names.get(self.words.len()) {
            return Err(format!("{name} is missing"));
        }
        match self.words.get(names.len()) {
            Some(word) => Err(format!("there is a word too many: {}", shown(word))),
            None => Ok(self.words.iter().map(OsString::as_os_str).collect()),
        }
    }

    pub fn word_count(&self) -> usize {
        self.words.len()
    }
}

/// A number of decimal digits alone: the standard reader would take a sign, too.
pub fn number<T: FromStr>(word: &OsStr) -> Option<T> {
    let text = word.to_str()?;
    text.bytes().all(|byte| byte.is_ascii_digit()).then(|| text.parse().ok())?
}

fn not_a_number(name: &str, value: &OsStr) -> String {
    format!("option {name} wants a number that is not too large, and got {}", shown(value))
}

/// A word as a sentence shows it: in quotes, and not longer than a line.
pub fn shown(word: &OsStr) -> String {
    let text = word.to_string_lossy();
    match text.chars().count() > 60 {
        true => format!("{:?}...", text.chars().take(60).collect::<String>()),
        false => format!("{text:?}"),
    }
}
