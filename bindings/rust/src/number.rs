//! The numbers that tell how a job went, with their names and meanings.

use std::fmt;

/// How a job went: 0, an error of POSIX numbered as on Linux, or one of Mirepillar's own from 201 on.
#[derive(Clone, Copy, Debug, PartialEq, Eq, PartialOrd, Ord, Hash)]
pub struct Number(pub u8);

impl Number {
    pub const DONE: Number = Number(0);
    pub const EPERM: Number = Number(1);
    pub const ENOENT: Number = Number(2);
    pub const EBADF: Number = Number(9);
    pub const EACCES: Number = Number(13);
    pub const EBUSY: Number = Number(16);
    pub const EEXIST: Number = Number(17);
    pub const EXDEV: Number = Number(18);
    pub const ENOTDIR: Number = Number(20);
    pub const EISDIR: Number = Number(21);
    pub const EINVAL: Number = Number(22);
    pub const ENOSPC: Number = Number(28);
    pub const EROFS: Number = Number(30);
    pub const EMLINK: Number = Number(31);
    pub const ENAMETOOLONG: Number = Number(36);
    pub const ENOTEMPTY: Number = Number(39);
    pub const ELOOP: Number = Number(40);
    pub const UNSOUND: Number = Number(201);
    pub const WRONG_REQUEST: Number = Number(202);
    pub const PENDING: Number = Number(203);
    pub const NOT_REPAIRABLE: Number = Number(204);
    pub const SHORT_BUFFER: Number = Number(205);
    pub const BAD_ROW: Number = Number(207);

    pub fn is_done(self) -> bool {
        self == Number::DONE
    }

    /// The name that an error of POSIX has on Linux.
    pub fn errno(self) -> Option<&'static str> {
        entry(self).and_then(|(_, name, _)| *name)
    }

    /// What the number means, in a few words.
    pub fn meaning(self) -> &'static str {
        entry(self).map_or("no number of the table", |(_, _, meaning)| meaning)
    }
}

impl fmt::Display for Number {
    /// The number, its name if it has one, and its meaning, as in `13 EACCES: write or search denied`.
    fn fmt(&self, out: &mut fmt::Formatter) -> fmt::Result {
        match self.errno() {
            Some(name) => write!(out, "{} {name}: {}", self.0, self.meaning()),
            None => write!(out, "{} {}", self.0, self.meaning()),
        }
    }
}

type Entry = (Number, Option<&'static str>, &'static str);

fn entry(number: Number) -> Option<&'static Entry> {
    TABLE.iter().find(|entry| entry.0 == number)
}

/// Every number that a job answers. An error of POSIX may have several causes, and a job tells no more than the number.
const TABLE: [Entry; 23] = [
    (Number::DONE, None, "done"),
    (Number::EPERM, Some("EPERM"), "a sticky directory protects the old or the new name, or the new name is not portable"),
    (Number::ENOENT, Some("ENOENT"), "a path is empty, or a name does not exist"),
    (Number::EBADF, Some("EBADF"), "the handle that a relative path begins at is closed, or there is none of that number"),
    (Number::EACCES, Some("EACCES"), "search denied on the way, or write denied on a parent or on a directory that would move"),
    (
        Number::EBUSY,
        Some("EBUSY"),
        "a path has only slashes, a directory is on another file system than its parent, or what would be removed is the current directory or open",
    ),
    (Number::EEXIST, Some("EEXIST"), "the new name exists"),
    (Number::EXDEV, Some("EXDEV"), "the parents are on different file systems"),
    (
        Number::ENOTDIR,
        Some("ENOTDIR"),
        "a name on the way is no directory, a slash stands behind what is none, or a directory would replace what is none",
    ),
    (Number::EISDIR, Some("EISDIR"), "what is no directory would replace a directory"),
    (
        Number::EINVAL,
        Some("EINVAL"),
        "a path ends in . or .., a directory would come to lie inside itself, or the flags do not go together",
    ),
    (Number::ENOSPC, Some("ENOSPC"), "no directory entry is free"),
    (Number::EROFS, Some("EROFS"), "a parent is on a read-only file system"),
    (Number::EMLINK, Some("EMLINK"), "a directory would have more than 64 links"),
    (Number::ENAMETOOLONG, Some("ENAMETOOLONG"), "a path has over 255 bytes, or a component over 24"),
    (Number::ENOTEMPTY, Some("ENOTEMPTY"), "the directory that would be replaced has entries"),
    (Number::ELOOP, Some("ELOOP"), "a path leads through more than 40 symbolic links"),
    (Number::UNSOUND, None, "unsound image"),
    (
        Number::WRONG_REQUEST,
        None,
        "the current directory is none, a path has a byte 0, or there are more than 16 groups beside the effective one",
    ),
    (Number::PENDING, None, "the journal record (the note) is not all zero: repair first"),
    (Number::NOT_REPAIRABLE, None, "not repairable"),
    (Number::SHORT_BUFFER, None, "the plan has under 648 bytes, or the scratch is shorter than the image"),
    (Number::BAD_ROW, None, "row not landable"),
];
