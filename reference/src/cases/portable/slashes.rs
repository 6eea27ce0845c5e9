//! Slashes behind a final name: they change nothing about it, and what is asked of them comes after.

use super::{asked, Asked, Fate, Rows, Step, Walk, REFUSED};
use crate::model::numbers::{EISDIR, ENOTDIR};

/// Old, new's name, and the fates without a slash and with some.
const LINES: [(&[u8], &[u8], [Fate; 2]); 14] = [
    // Nothing has the name.
    (b"/p/f", b"u~", [REFUSED, REFUSED]),
    (b"/p/f", b"uv", [Rows(7), Step(ENOTDIR)]),
    (b"/p/s", b"u~", [REFUSED, REFUSED]),
    (b"/p/s", b"uv", [Rows(7), Rows(7)]),
    // A file.
    (b"/p/f", b"a b", [REFUSED, REFUSED]),
    (b"/p/f", b"mno", [Rows(8), Walk(ENOTDIR)]),
    (b"/p/s", b"a b", [REFUSED, REFUSED]),
    (b"/p/s", b"mno", [Step(ENOTDIR), Walk(ENOTDIR)]),
    // A directory.
    (b"/p/s", b"c+d", [REFUSED, REFUSED]),
    (b"/p/s", b"dir", [Rows(8), Rows(8)]),
    (b"/p/f", b"c+d", [REFUSED, REFUSED]),
    (b"/p/f", b"dir", [Step(EISDIR), Step(EISDIR)]),
    // A symlink.
    (b"/p/l", b"e:f", [REFUSED, REFUSED]),
    (b"/p/l", b"lnk", [Rows(9), Walk(ENOTDIR)]),
];

pub fn cases() -> Vec<Asked> {
    let mut all = vec![];
    for (old, name, [without, with]) in LINES {
        for (slashes, fate) in [(0, without), (1, with), (200, with)] {
            let new = [b"/n/", name, &vec![b'/'; slashes][..]].concat();
            all.push(asked("slashes behind", old, &new, fate, [2, 2]));
        }
    }
    all
}
