//! A request as a command line gives it: a file, or two paths and options.

use crate::arguments::{switch, valued, Arguments, Known};
use crate::files;
use crate::image::Image;
use crate::request::Asked;
use mirepillar::{CURRENT_DIRECTORY, EXCHANGE, NO_REPLACE};
use std::ffi::OsStr;
use std::os::unix::ffi::OsStrExt;
use std::path::Path;

/// The options that are flags of the call, and then those that say who asks.
pub const OPTIONS: &[Known] = &[
    switch("--exchange"),
    switch("--no-replace"),
    valued("--user", "number"),
    valued("--group", "number"),
    valued("--groups", "numbers"),
    valued("--cwd", "number"),
    valued("--old-start", "number"),
    valued("--new-start", "number"),
    valued("--now", "number"),
];

/// Those that a request file says itself.
const OF_THE_CALLER: [&str; 7] = ["--user", "--group", "--groups", "--cwd", "--old-start", "--new-start", "--now"];

/// What the words of a command give: an image, a request on it, and the words behind.
pub struct Given<'a> {
    pub image: Vec<u8>,
    pub asked: Asked,
    /// The files that were read, with their names.
    pub read: Vec<(&'static str, &'a Path)>,
    pub behind: Vec<&'a Path>,
}

/// Reads words that are IMAGE OLD NEW or IMAGE REQUEST, and then those that are named.
pub fn given<'a>(arguments: &'a Arguments, behind: &[&'static str]) -> Result<Given<'a>, String> {
    let by_paths = arguments.word_count() >= 3 + behind.len();
    let names: &[&str] = if by_paths { &["IMAGE", "OLD", "NEW"] } else { &["IMAGE", "REQUEST (or OLD and NEW)"] };
    let words = arguments.list(&[names, behind].concat())?;
    let path = Path::new(words[0]);
    let image = files::read(path)?;
    let mut read = vec![("IMAGE", path)];
    let asked = match by_paths {
        true => of_paths(arguments, &image, words[1], words[2])?,
        false => {
            read.push(("REQUEST", Path::new(words[1])));
            of_file(arguments, Path::new(words[1]))?
        }
    };
    Ok(Given { image, asked, read, behind: words[names.len()..].iter().map(|&word| Path::new(word)).collect() })
}

/// The request of a file, with the flags that the options ask for.
fn of_file(arguments: &Arguments, path: &Path) -> Result<Asked, String> {
    let name = files::named(path);
    if let Some(option) = OF_THE_CALLER.iter().find(|option| arguments.has(option)) {
        return Err(format!("option {option} goes with OLD and NEW: the file {name} says it itself"));
    }
    let asked = Asked::read(&files::read(path)?).map_err(|sentence| format!("{name} is no request: {sentence}"))?;
    Ok(Asked { flags: flags(arguments), ..asked })
}

/// The request of two paths. Without --now its time is one that shows: later than all in the image.
fn of_paths(arguments: &Arguments, image: &[u8], old: &OsStr, new: &OsStr) -> Result<Asked, String> {
    Ok(Asked {
        user: arguments.number("--user", 0)?,
        group: arguments.number("--group", 0)?,
        groups: arguments.numbers("--groups")?,
        cwd: arguments.number("--cwd", 0)?,
        old_start: arguments.number("--old-start", CURRENT_DIRECTORY)?,
        new_start: arguments.number("--new-start", CURRENT_DIRECTORY)?,
        now: arguments.number("--now", later(image))?,
        flags: flags(arguments),
        old: old.as_bytes().to_vec(),
        new: new.as_bytes().to_vec(),
    })
}

fn later(image: &[u8]) -> u64 {
    let inodes = Image::read(image).map(|image| image.inodes).unwrap_or_default();
    let latest = inodes.iter().map(|inode| inode.modified.max(inode.changed)).max();
    latest.unwrap_or(0).saturating_add(1)
}

/// Both flags together are the job's to refuse.
fn flags(arguments: &Arguments) -> u32 {
    let flag = |name: &str, bit: u32| if arguments.has(name) { bit } else { 0 };
    flag("--exchange", EXCHANGE) | flag("--no-replace", NO_REPLACE)
}
