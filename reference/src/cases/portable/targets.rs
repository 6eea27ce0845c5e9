//! New names that exist, several names of one file, callers of every kind, and letters of other alphabets.

use super::{asked, Asked, Fate, Rows, Step, REFUSED};
use crate::model::numbers::{EISDIR, ENOTDIR};

type Line = (&'static [u8], &'static [u8], Fate);

/// Every kind that is replaced, or could be but for its name.
const KINDS: [Line; 13] = [
    (b"/p/f", b"/n/a b", REFUSED),
    (b"/p/f", b"/n/mno", Rows(8)),
    (b"/p/l", b"/n/a b", REFUSED),
    (b"/p/l", b"/n/mno", Rows(8)),
    (b"/p/f", b"/n/e:f", REFUSED),
    (b"/p/f", b"/n/lnk", Rows(9)),
    (b"/p/s", b"/n/c+d", REFUSED),
    (b"/p/s", b"/n/dir", Rows(8)),
    (b"/p/s", b"/n/g,h", REFUSED),
    (b"/p/f", b"/n/c+d", REFUSED),
    (b"/p/f", b"/n/dir", Step(EISDIR)),
    (b"/p/s", b"/n/a b", REFUSED),
    (b"/p/s", b"/n/mno", Step(ENOTDIR)),
];

/// Both are names of one inode, which counts for nothing where new's is not portable.
const ONE_INODE: [Line; 13] = [
    (b"/p/f", b"/n/f~", REFUSED),
    (b"/n/f~", b"/p/f", Rows(0)),
    (b"/p/f", b"/n/f2", Rows(0)),
    (b"/n/f2", b"/n/f~", REFUSED),
    (b"/n/f~", b"/n/f2", Rows(0)),
    (b"/n/f~", b"/n/f~", REFUSED),
    (b"/n/f2", b"/n/f2", Rows(0)),
    (b"/n/a b", b"/n/a b", REFUSED),
    (b"/n/c+d", b"/n/c+d", REFUSED),
    (b"/n/c+d/", b"/n/c+d/", REFUSED),
    (b"/n/dir", b"/n/dir/", Rows(0)),
    (b"/n/e:f", b"/n/e:f", REFUSED),
    (b"/p/s", b"/p/s", Rows(0)),
];

/// Letters, digits, dots and hyphens of other alphabets, in their usual encodings, and what a terminal would not show.
const FOREIGN: [&[u8]; 24] = [
    b"\xe4",
    "ä".as_bytes(),
    "É".as_bytes(),
    "ß".as_bytes(),
    "ÿ".as_bytes(),
    b"\xff",
    "ı".as_bytes(),
    "а".as_bytes(),
    "Ω".as_bytes(),
    "٣".as_bytes(),
    "²".as_bytes(),
    "Ａ".as_bytes(),
    "０".as_bytes(),
    "．".as_bytes(),
    "＿".as_bytes(),
    "‐".as_bytes(),
    "–".as_bytes(),
    "\u{ad}".as_bytes(),
    "\u{a0}".as_bytes(),
    b"\xc1\x81",
    b"\xc3",
    b"\x81\x40",
    b"a\tb",
    b"a\n",
];

/// Nobody is exempt: not the superuser, and not who owns everything.
fn by_anybody() -> Vec<Asked> {
    let mut all = vec![];
    for user in [0, 100, 50, 300, u32::MAX] {
        for (new, fate) in [(&b"/n/u~"[..], REFUSED), (b"/n/a b", REFUSED), (b"/n/f~", REFUSED), (b"/n/uv", Rows(7))] {
            all.push(asked("any caller", b"/p/f", new, fate, [2, 2]).by(user));
        }
    }
    all
}

pub fn cases() -> Vec<Asked> {
    let line = |class| move |(old, new, fate): Line| asked(class, old, new, fate, [2, 2]);
    let kinds = KINDS.into_iter().map(line("existing names"));
    let one_inode = ONE_INODE.into_iter().map(line("one inode"));
    let name = |name: &[u8]| asked("other alphabets", b"/p/f", &[b"/n/", name].concat(), REFUSED, [2, 2]);
    let foreign = FOREIGN.into_iter().map(name);
    kinds.chain(one_inode).chain(foreign).chain(by_anybody()).collect()
}
