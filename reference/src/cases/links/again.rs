//! One symlink named again and again in one path, and then a chain besides.

use super::chains::chain;
use super::MOST;
use crate::cases::trees::for_links::{ON_D, SEARCH_D};
use crate::cases::walk::probes::{joined, Table};
use crate::model::numbers::{DONE, ELOOP};
use crate::model::request::CURRENT;

/// The numbers of symlinks that a path of each form leads through: about the limit, and about the one before it.
const COUNTS: [usize; 5] = [8, 9, 39, 40, 41];

/// Number and count of a path through so many symlinks in a row, each of which takes so many steps, and one name that exists
/// behind them. One symlink too many is found out at its own name.
fn through(symlinks: usize, each: u16) -> (u8, u16) {
    let followed = symlinks.min(MOST) as u16;
    (if symlinks > MOST { ELOOP } else { DONE }, each * followed + 1)
}

/// Where the path starts, what stands ahead of the symlinks, their name with its slashes, and the final name; the steps
/// that each symlink takes, and those ahead.
const FORMS: [(u8, &str, &str, &str, u16, u16); 9] = [
    (CURRENT, "", "here/", "f", 2, 0),
    (CURRENT, "/", "here/", "d", 2, 0),
    (CURRENT, "///", "here//", "d/", 2, 0),
    (CURRENT, "", "o//", "x//", 2, 0),
    (CURRENT, "", "root/", "f", 1, 0),
    (CURRENT, "/", "root//", "d///", 1, 0),
    (CURRENT, "./d/", "here/", "e", 2, 2),
    (ON_D, "", "here/", "f", 2, 0),
    (SEARCH_D, "./", "here//", "e/", 2, 1),
];

pub fn one_symlink() -> Table {
    let mut table = Table::new("one symlink again");
    for (start, ahead, symlink, last, each, steps_ahead) in FORMS {
        for count in COUNTS {
            let (number, steps) = through(count, each);
            let path = joined(&[(ahead, 1), (symlink, count), (last, 1)]);
            table.at(start, number, steps_ahead + steps, &[&path]);
        }
    }
    table.all(ELOOP, 81, &[&joined(&[("o/", 127), ("f", 1)]), &joined(&[("here/", 50), ("f", 1)])]);
    table.all(DONE, 61, &[&joined(&[("here/root/", 20), ("f", 1)]), &joined(&[("root/o//", 20), ("d/", 1)])]);
    table.all(ELOOP, 61, &[&joined(&[("here/root/", 20), ("here/f", 1)]), &joined(&[("root/o//", 21), ("d/", 1)])]);
    table
}

/// The path to a final name, by one symlink again and then by a chain, which ends in `d`.
fn chained_last(again: usize, chained: usize) -> Vec<u8> {
    joined(&[("here/", again), (&chain(chained), 1), ("/f", 1)])
}

/// The same the other way round: `d` has a name of that symlink too.
fn chained_first(chained: usize, again: usize) -> Vec<u8> {
    joined(&[(&chain(chained), 1), ("/", 1), ("here/", again), ("f", 1)])
}

pub fn again_and_chained() -> Table {
    let mut table = Table::new("again and chained");
    table.all(DONE, 62, &[&chained_last(20, 20)]);
    table.all(DONE, 63, &[&chained_last(21, 19)]);
    table.all(DONE, 81, &[&chained_last(39, 1)]);
    table.all(ELOOP, 61, &[&chained_last(20, 21)]);
    table.all(ELOOP, 62, &[&chained_last(21, 20)]);
    table.all(ELOOP, 81, &[&chained_last(40, 1), &chained_last(40, 41)]);
    table.all(DONE, 62, &[&chained_first(20, 20)]);
    table.all(DONE, 61, &[&chained_first(21, 19)]);
    table.all(DONE, 43, &[&chained_first(39, 1)]);
    table.all(ELOOP, 62, &[&chained_first(20, 21)]);
    table.all(ELOOP, 61, &[&chained_first(21, 20)]);
    table.all(ELOOP, 42, &[&chained_first(40, 1)]);
    table
}
