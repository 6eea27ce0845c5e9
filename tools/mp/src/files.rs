//! Files read whole, and files written so that a loss of power leaves the old contents or the new, and never a part.

use std::fs::{self, File, Metadata, OpenOptions};
use std::io::{self, ErrorKind, Read, Write};
use std::os::unix::fs::{fchown, MetadataExt, OpenOptionsExt};
use std::path::{Path, PathBuf};

/// No image, plan or request comes near this length.
pub const LONGEST: u64 = 1 << 20;

/// No listing does: 1,024 paths, each through 511 directories with names of 24 bytes, and each byte written as four.
pub const LONGEST_LISTING: u64 = 1 << 27;

/// A path as a sentence names it: one that a person could not read as it stands is in quotes.
pub fn named(path: &Path) -> String {
    let text = path.to_string_lossy();
    match text.is_empty() || text.chars().any(char::is_control) {
        true => format!("{text:?}"),
        false => text.into_owned(),
    }
}

fn said(path: &Path, what: &str, error: io::Error) -> String {
    format!("{} cannot be {what}: {error}", named(path))
}

/// A file's contents; one that is too long is refused before it fills the memory.
pub fn read(path: &Path) -> Result<Vec<u8>, String> {
    let file = File::open(path).map_err(|error| said(path, "opened", error))?;
    read_from(file, &named(path), LONGEST)
}

/// What a reader gives up to its end, or up to a limit.
pub fn read_from(reader: impl Read, name: &str, longest: u64) -> Result<Vec<u8>, String> {
    let mut bytes = Vec::new();
    reader.take(longest + 1).read_to_end(&mut bytes).map_err(|error| format!("{name} cannot be read: {error}"))?;
    match bytes.len() as u64 > longest {
        true => Err(format!("{name} is too long: it has more than {longest} bytes")),
        false => Ok(bytes),
    }
}

/// New contents of a file, written and synced beside it under another name. Dropped before it takes its place, it is removed.
pub struct Staged {
    new: PathBuf,
    place: PathBuf,
    placed: bool,
}

impl Staged {
    /// Writes contents that are to stand at a path. What stands there now is not touched.
    pub fn write(path: &Path, contents: &[u8]) -> Result<Staged, String> {
        let (place, old) = place_of(path)?;
        let new = beside(&place);
        // Until it has the old one's mode, nobody else has to see what is in it.
        let mode = if old.is_some() { 0o600 } else { 0o666 };
        let opened = OpenOptions::new().write(true).create_new(true).mode(mode).open(&new);
        let mut file = opened.map_err(|error| said(path, "written", error))?;
        let staged = Staged { new, place, placed: false };
        let kept = old.map_or(Ok(()), |old| keep(&file, &old));
        let written = kept.and_then(|()| file.write_all(contents)).and_then(|()| file.sync_all());
        written.map_err(|error| said(path, "written", error))?;
        Ok(staged)
    }

    /// Takes the place, and has the folder say so after a loss of power, too.
    pub fn place(mut self) -> Result<(), String> {
        fs::rename(&self.new, &self.place).map_err(|error| said(&self.place, "written", error))?;
        self.placed = true;
        let synced = File::open(folder(&self.place)).and_then(|folder| folder.sync_all());
        synced.map_err(|error| format!("{} is written, but its folder cannot be synced: {error}", named(&self.place)))
    }
}

impl Drop for Staged {
    fn drop(&mut self) {
        if !self.placed {
            // The file was made a moment ago; if it cannot be removed, there is nobody left to tell.
            let _ = fs::remove_file(&self.new);
        }
    }
}

/// Writes a file whole, or leaves it as it was.
pub fn write(path: &Path, contents: &[u8]) -> Result<(), String> {
    Staged::write(path, contents)?.place()
}

/// A file that is replaced passes its owner on, where the caller may give files away, and its mode.
fn keep(file: &File, old: &Metadata) -> io::Result<()> {
    match fchown(file, Some(old.uid()), Some(old.gid())) {
        Err(error) if error.kind() != ErrorKind::PermissionDenied => Err(error),
        _ => file.set_permissions(old.permissions()),
    }
}

/// A file that is written must be no other file of the same command.
pub fn all_different(written: &[(&str, &Path)], read: &[(&str, &Path)]) -> Result<(), String> {
    for (at, (name, path)) in written.iter().enumerate() {
        let others = written[..at].iter().chain(read);
        if let Some((other, _)) = others.into_iter().find(|(_, other)| real(other) == real(path)) {
            return Err(format!("{name} and {other} are the same file, {}", named(path)));
        }
    }
    Ok(())
}

/// A path without symlinks and dots, also where its last name does not exist yet.
fn real(path: &Path) -> PathBuf {
    let below = || Some(fs::canonicalize(folder(path)).ok()?.join(path.file_name()?));
    fs::canonicalize(path).ok().or_else(below).unwrap_or(path.to_path_buf())
}

fn folder(path: &Path) -> &Path {
    match path.parent() {
        Some(parent) if !parent.as_os_str().is_empty() => parent,
        _ => Path::new("."),
    }
}

/// Where a path leads, and what stands there now. That has to be a file, and writable: taking its place would not ask.
fn place_of(path: &Path) -> Result<(PathBuf, Option<Metadata>), String> {
    let no_file = || Err(format!("{} cannot be written: it is no regular file", named(path)));
    match fs::symlink_metadata(path) {
        Err(error) if error.kind() == ErrorKind::NotFound => return Ok((path.to_path_buf(), None)),
        Err(error) => return Err(said(path, "written", error)),
        // What a process has open has a name there, and the name of a pipe or of another's file must not be taken.
        Ok(_) if ["/dev", "/proc"].iter().any(|folder| path.starts_with(folder)) => return no_file(),
        Ok(_) => (),
    }
    let place = fs::canonicalize(path).map_err(|error| said(path, "written", error))?;
    let old = fs::metadata(&place).map_err(|error| said(path, "written", error))?;
    if !old.is_file() || place.starts_with("/proc") {
        return no_file();
    }
    OpenOptions::new().write(true).open(&place).map_err(|error| said(path, "written", error))?;
    Ok((place, Some(old)))
}

/// A short name in the same folder that no other process takes, nor another file of this one.
fn beside(place: &Path) -> PathBuf {
    static STAGED: std::sync::atomic::AtomicU32 = std::sync::atomic::AtomicU32::new(0);
    let number = STAGED.fetch_add(1, std::sync::atomic::Ordering::Relaxed);
    place.with_file_name(format!(".mp-{}-{number}.new", std::process::id()))
}
