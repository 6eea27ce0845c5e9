//! The limit of symlinks beside the other two of a walk: the length of a joined path, and the count of all steps.

use super::chains::chain;
use crate::cases::walk::probes::{joined, Table};
use crate::model::numbers::{DONE, EINVAL, ELOOP, ENAMETOOLONG, ENOTDIR};
use crate::model::request::CURRENT;

/// 39 symlinks by texts that name several, in 61 steps; with another one, 40 in 63.
const FEWER: &str = "t3/t3/t2/o/o/";
const AS_MANY: &str = "t3/t3/t2/o/o/o/";

/// A joined path of 255 bytes passes at the fortieth symlink, and one of 256 does not; at the next both are 40.
pub fn joined_lengths() -> Table {
    let mut table = Table::new("joined length");
    let wide = |ahead: &str, slashes: usize| joined(&[(ahead, 1), ("wide", 1), ("/", slashes), ("f", 1)]);
    table.all(DONE, 95, &[&wide(FEWER, 190), &wide(FEWER, 191)]);
    table.all(ENAMETOOLONG, 62, &[&wide(FEWER, 192), &wide(FEWER, 220)]);
    table.all(ELOOP, 64, &[&wide(AS_MANY, 190), &wide(AS_MANY, 191), &wide(AS_MANY, 192), &wide(AS_MANY, 220)]);
    let slashes = |ahead: &str, count: usize| joined(&[(ahead, 1), ("wide/e", 1), ("/", count)]);
    table.all(DONE, 95, &[&slashes(FEWER, 190)]);
    table.all(ENAMETOOLONG, 62, &[&slashes(FEWER, 191)]);
    table.all(ELOOP, 64, &[&slashes(AS_MANY, 190), &slashes(AS_MANY, 191)]);
    let chained = |symlinks: usize, slashes: usize| joined(&[(&chain(symlinks), 1), ("/", slashes), ("f", 1)]);
    table.all(DONE, 42, &[&chained(40, 248), &chained(40, 249)]);
    table.all(ENAMETOOLONG, 40, &[&chained(40, 250)]);
    table.all(ELOOP, 41, &[&chained(41, 249), &chained(41, 250)]);
    table.all(ENAMETOOLONG, 3, &[&chained(40, 251)]);
    table.all(ENAMETOOLONG, 4, &[&chained(41, 251)]);
    let growing = |slashes: usize| joined(&[("g", 1), ("/", slashes), ("f", 1)]);
    table.all(ELOOP, 41, &[&growing(48), &growing(49), &growing(53)]);
    table.all(ENAMETOOLONG, 40, &[&growing(54)]);
    table
}

/// The most that is possible: 128 components, and forty texts of 32. The first of these symlinks has 192 bytes behind its
/// name, which is the most that a text of 63 bytes can be joined with, and every other one has fewer.
pub fn longest(last: &str) -> Vec<u8> {
    joined(&[("./", 31), ("w/", 40), ("./", 56), (last, 1)])
}

/// A path with so many dots ahead of symlinks to such a text, and so many behind.
fn dots(ahead: usize, texts: usize, behind: usize) -> Vec<u8> {
    joined(&[("./", ahead), ("w/", texts), ("./", behind), ("f", 1)])
}

pub fn longest_walks() -> Table {
    let mut table = Table::new("longest walks");
    table.all(DONE, 1408, &[&longest("f"), &longest("o"), &longest("x")]);
    table.missing(CURRENT, 1408, &[&longest("y")]);
    table.all(EINVAL, 1408, &[&longest(".")]);
    table.all(DONE, 1408, &[&dots(87, 40, 0), &dots(60, 40, 27)]);
    table.all(DONE, 1407, &[&dots(30, 40, 56), &joined(&[("/", 1), ("./", 31), ("w/", 40), ("./", 55), ("f", 1)])]);
    table.all(DONE, 1376, &[&dots(31, 39, 57)]);
    table.all(ENAMETOOLONG, 31, &[&dots(30, 40, 57), &joined(&[("./", 30), ("w/", 40), ("./", 56), ("/f", 1)])]);
    table.all(ELOOP, 1352, &[&dots(31, 41, 55)]);
    table.all(ELOOP, 1407, &[&dots(86, 41, 0)]);
    table.all(ELOOP, 1378, &[&dots(57, 70, 0)]);
    table.all(ENOTDIR, 1377, &[&joined(&[("./", 56), ("w/", 40), ("f/", 1)])]);
    table
}
