//! Symlinks that lead to others: chains, texts that name several, and loops.

use super::MOST;
use crate::cases::walk::probes::{joined, Table};
use crate::model::numbers::{DONE, EINVAL, ELOOP, ENAMETOOLONG, ENOENT, ENOTDIR};
use crate::model::request::CURRENT;

/// The name with which a chain of so many symlinks begins, all of them different. It ends in `d`.
pub fn chain(symlinks: usize) -> String {
    format!("c{:02}", MOST + 2 - symlinks)
}

/// Chains of every length. Each symlink is a step, and so is `d` behind the last one.
pub fn chains() -> Table {
    let mut table = Table::new("chains");
    let path = |symlinks: usize, behind: &str| format!("{}{behind}", chain(symlinks)).into_bytes();
    for symlinks in 1..=MOST {
        table.all(DONE, symlinks as u16 + 2, &[&path(symlinks, "/f")]);
    }
    for (symlinks, steps) in [(8, 10), (9, 11), (39, 41), (40, 42)] {
        table.all(DONE, steps, &[&path(symlinks, "//e/"), &path(symlinks, "///here")]);
        table.missing(CURRENT, steps, &[&path(symlinks, "/nope")]);
        table.all(EINVAL, steps, &[&path(symlinks, "/.")]);
    }
    for behind in ["/f", "//e/", "///here", "/nope", "/."] {
        table.all(ELOOP, 41, &[&path(MOST + 1, behind)]);
    }
    table.all(DONE, 1, &[b"c01", b"/c02"]);
    table.all(ENOTDIR, 1, &[b"c01/", b"/c02//"]);
    table
}

/// `t1` stands for 3 symlinks in 5 steps, and each of those behind it for twice as many and one more: 7 in 11, 15 in 23, 31 in
/// 47, 63. `many` stands for 6 in 9.
pub fn several_in_a_text() -> Table {
    let mut table = Table::new("several in a text");
    table.all(DONE, 6, &[b"t1/f", b"//t1//d/"]);
    table.all(DONE, 12, &[b"t2/f"]);
    table.all(DONE, 24, &[b"/t3/f"]);
    table.all(DONE, 48, &[b"t4/f", b"/t4//here"]);
    table.all(DONE, 64, &[&joined(&[("t4/", 1), ("here/", 8), ("f", 1)])]);
    table.all(DONE, 66, &[&joined(&[("t4/", 1), ("here/", 9), ("f", 1)]), &joined(&[("o/", 9), ("t4/f", 1)])]);
    table.all(ELOOP, 66, &[&joined(&[("t4/", 1), ("here/", 10), ("f", 1)])]);
    table.all(DONE, 64, &[b"t3/t3/t2/o/o/o/f", b"t2/t3/o//o//o//t3/x/"]);
    table.all(ELOOP, 64, &[b"t3/t3/t2/o/o/o/o/f"]);
    table.all(ELOOP, 63, &[b"t3/t3/t2/t1/t1/f"]);
    table.all(ELOOP, 60, &[b"t5/f", b"t5/nope/x", b"/t5//."]);
    table.all(DONE, 10, &[b"many/f", b"/many//d/"]);
    table.all(DONE, 63, &[&joined(&[("many/", 6), ("o/", 4), ("f", 1)])]);
    table.all(ELOOP, 63, &[&joined(&[("many/", 6), ("o/", 5), ("f", 1)])]);
    table.all(ELOOP, 60, &[&joined(&[("many/", 7), ("f", 1)])]);
    table
}

/// Where a loop begins behind other symlinks, or has names of other kinds in its texts, it ends sooner or later than at step 41.
pub fn loops() -> Table {
    let mut table = Table::new("loops");
    table.all(ELOOP, 41, &[b"loop/x", b"/loop//x", b"loop/.", b"loop/nope/x", b"ping/x", b"pong/x", b"/pong/x/"]);
    table.all(ELOOP, 43, &[b"d/../loop/x", b"././/ping/x"]);
    table.all(ELOOP, 42, &[b"here/loop/x", b"./loop/x"]);
    table.all(ELOOP, 41, &[b"root/ping/x"]);
    table.all(ELOOP, 43, &[b"enter/x"]);
    table.all(ELOOP, 46, &[b"here/here/here/enter/x"]);
    table.all(ELOOP, 81, &[b"slow/x", b"/slow/."]);
    table.all(ELOOP, 121, &[b"round/x"]);
    table.all(ELOOP, 41, &[b"g/f"]);
    table.all(ENAMETOOLONG, 28, &[b"swell/f"]);
    table.all(ELOOP, 81, &[&joined(&[("here/", 40), ("loop/x", 1)])]);
    table.all(DONE, 81, &[&joined(&[("here/", 40), ("loop", 1)])]);
    table.all(ENOTDIR, 81, &[&joined(&[("here/", 40), ("loop//", 1)])]);
    table.all(ENOENT, 2, &[b"gone/loop/x"]);
    table
}
