//! What comes next to the fortieth symlink of a path, and next to the one too many.

use super::chains::chain;
use super::MOST;
use crate::cases::walk::probes::{joined, Table};
use crate::model::numbers::{DONE, EACCES, EINVAL, ELOOP, ENAMETOOLONG, ENOENT, ENOTDIR};
use crate::model::request::CURRENT;

/// Longer than a name can be.
const LONG: &str = "ccccccccccccccccccccccccc";

/// A path in root behind so many symlinks, two steps each.
fn behind(symlinks: usize, rest: &str) -> Vec<u8> {
    joined(&[("here/", symlinks), (rest, 1)])
}

/// A path in `d` behind so many symlinks, one step each, and `d` itself.
fn chained(symlinks: usize, rest: &str) -> Vec<u8> {
    format!("/{}/{rest}", chain(symlinks)).into_bytes()
}

/// Probes of one class that are told by what is behind the symlinks.
struct Rests {
    table: Table,
    behind: fn(usize, &str) -> Vec<u8>,
    symlinks: usize,
    steps: u16,
}

impl Rests {
    /// The steps are those behind the symlinks.
    fn all(&mut self, number: u8, steps: u16, rests: &[&str]) {
        for rest in rests {
            self.table.all(number, self.steps + steps, &[&(self.behind)(self.symlinks, rest)]);
        }
    }

    fn missing(&mut self, steps: u16, rests: &[&str]) {
        for rest in rests {
            self.table.missing(CURRENT, self.steps + steps, &[&(self.behind)(self.symlinks, rest)]);
        }
    }
}

/// A final symlink is not followed, and so it is none too many; anything but a slash behind it makes it one.
pub fn final_symlinks() -> Table {
    let table = Table::new("final symlink");
    let mut rests = Rests { table, behind, symlinks: MOST, steps: 80 };
    rests.all(DONE, 1, &["here", "root", "c01", "t5", "gone"]);
    rests.all(ENOTDIR, 1, &["here/", "c41///"]);
    rests.all(ELOOP, 1, &["here/f", "root//f", "c41/.", "t5/x/"]);
    let mut rests = Rests { behind: chained, steps: 41, ..rests };
    rests.all(DONE, 1, &["here"]);
    rests.all(ENOTDIR, 1, &["here/", "here//"]);
    rests.all(ELOOP, 1, &["here/f", "here//.", "here/nope"]);
    rests.all(DONE, 2, &["../here", "..//t5"]);
    rests.table
}

/// Forty symlinks are followed, and what is behind them is asked as ever.
pub fn behind_the_fortieth() -> Table {
    let table = Table::new("behind the fortieth");
    let mut rests = Rests { table, behind, symlinks: MOST, steps: 80 };
    rests.all(DONE, 1, &["f", "d/"]);
    rests.missing(1, &["nope", "nope/"]);
    rests.all(ENOENT, 1, &["nope/x", "nope/here/x"]);
    rests.all(ENOTDIR, 1, &["f/"]);
    rests.all(ENOTDIR, 2, &["f/x", "f/.", "f//here/x"]);
    rests.all(EACCES, 2, &["p/f", "p/.", "p/nope/x"]);
    rests.all(ENAMETOOLONG, 1, &[LONG, "cccccccccccccccccccccccccc/x"]);
    rests.all(EINVAL, 1, &[".", "..//"]);
    rests.all(DONE, 3, &["d/../f", "d/e/f"]);
    let mut rests = Rests { symlinks: MOST - 1, steps: 78, ..rests };
    rests.all(ENOTDIR, 3, &["tofile/x", "tofile/.", "tofile/here/x"]);
    rests.all(EACCES, 3, &["private/f", "private/here/f"]);
    rests.all(ENOENT, 2, &["gone/x", "gone/here/x"]);
    rests.all(ENAMETOOLONG, 2, &["toolong/x", "toolong/here/x"]);
    rests.all(EINVAL, 3, &["here/.", "here/..", "o//./"]);
    let mut rests = Rests { behind: chained, symlinks: MOST, steps: 41, ..rests };
    rests.all(DONE, 1, &["f", "e", "e/"]);
    rests.missing(1, &["nope"]);
    rests.all(ENOENT, 1, &["nope/x"]);
    rests.all(ENOTDIR, 2, &["f/x", "f/here/x"]);
    rests.all(EACCES, 3, &["../p/f", "..//p/here/f"]);
    rests.all(ENAMETOOLONG, 1, &[LONG]);
    rests.all(EINVAL, 1, &[".", ".."]);
    rests.table
}

/// One symlink too many is 40, whatever is behind it and wherever it leads. But what is asked of its name ahead of looking it
/// up comes first: whether that is in a directory, whether this may be searched, and how long the name is.
pub fn at_the_forty_first() -> Table {
    let table = Table::new("at the forty-first");
    let mut rests = Rests { table, behind, symlinks: MOST, steps: 80 };
    rests.all(ELOOP, 1, &["here/nope", "here/nope/x", "here/f/", "here/f/x", "here/p/f", "here/.", "here/..//"]);
    rests.all(ELOOP, 1, &["here/ccccccccccccccccccccccccc", "tofile/x", "gone/x", "private/f", "toolong/x", "loop/x"]);
    rests.all(EACCES, 2, &["p/here/f", "p/here//."]);
    rests.all(ENOTDIR, 2, &["f/here/f", "f//here/."]);
    rests.all(ENAMETOOLONG, 1, &["ccccccccccccccccccccccccc/here/f"]);
    rests.all(ELOOP, 2, &["./here/f", "d/here/f", "../here/f"]);
    let mut rests = Rests { behind: chained, symlinks: MOST + 1, steps: 40, ..rests };
    rests.all(ELOOP, 1, &["f", "nope", "nope/x", "f/x", "../p/f", LONG, ".", "here", "here/f"]);
    rests.table
}
