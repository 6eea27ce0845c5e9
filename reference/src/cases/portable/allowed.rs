//! Names that are not portable wherever they are allowed: in old, before new's final name, in texts and in the image.

use super::{asked, Asked, Fate, Rows, Step, REFUSED};
use crate::model::numbers::{EINVAL, EISDIR};

/// Old, new, the fate and both counts.
type Line = (&'static [u8], &'static [u8], Fate, [u16; 2]);

/// Each name is old's final one, and goes; then it is new's.
const OLD: [Line; 14] = [
    (b"/p/old name", b"/n/uv", Rows(7), [2, 2]),
    (b"/p/old name", b"/n/mno", Rows(8), [2, 2]),
    (b"/p/old name", b"/p/old-name", Rows(6), [2, 2]),
    (b"/p/old\xffdir", b"/n/uv", Rows(7), [2, 2]),
    (b"/p/old\xffdir/", b"/n/dir/", Rows(8), [2, 2]),
    (b"/n/a b", b"/n/uv", Rows(6), [2, 2]),
    (b"/n/a b", b"/n/mno", Rows(7), [2, 2]),
    (b"/n/c+d", b"/n/c-d", Rows(6), [2, 2]),
    (b"/n/c+d", b"/p/s", Rows(8), [2, 2]),
    (b"/n/e:f", b"/p/uv", Rows(7), [2, 2]),
    (b"/n/g,h", b"/p/uv/", Rows(7), [2, 2]),
    (b"/x y", b"/n/uv", Rows(7), [1, 2]),
    (b"/to\xe4", b"/uv", Rows(6), [1, 1]),
    (b"/n/a b", b"/n/dir", Step(EISDIR), [2, 2]),
];

/// Before the final one, in either path, and in the texts of symlinks.
const BEFORE: [Line; 12] = [
    (b"/p/f", b"/x y/uv", Rows(7), [2, 2]),
    (b"/p/f", b"/x y//z///uv", Rows(7), [2, 3]),
    (b"/p/f", b"/n/c+d/uv", Rows(7), [2, 3]),
    (b"/p/f", b"/n/c+d/../uv", Rows(7), [2, 4]),
    (b"/x y/z", b"/n/uv", Rows(7), [2, 2]),
    (b"/x y/z", b"/x y/uv", Rows(6), [2, 2]),
    (b"/n/g,h/in", b"/n/c+d/in", Rows(7), [3, 3]),
    (b"/to\xe4/z", b"/to\xe4/uv", Rows(6), [3, 3]),
    (b"/to\xe4/up/a b", b"/x y/up/uv", Rows(6), [6, 5]),
    (b"/x y", b"/x y/z/uv", Step(EINVAL), [1, 3]),
    (b"/n/c+d", b"/n/c+d/uv", Step(EINVAL), [2, 3]),
    (b"/p/old\xffdir", b"/x y/../p/old\xffdir/../uv", Rows(6), [2, 6]),
];

/// The same names, or the same paths but for the final name, at the end of new.
const FINAL: [Line; 8] = [
    (b"/p/f", b"/x y/u~", REFUSED, [2, 2]),
    (b"/p/f", b"/n/c+d/c+d", REFUSED, [2, 3]),
    (b"/x y/z", b"/x y/x y", REFUSED, [2, 2]),
    (b"/p/old name", b"/n/old name", REFUSED, [2, 2]),
    (b"/p/old\xffdir", b"/n/old\xffdir/", REFUSED, [2, 2]),
    (b"/n/a b", b"/x y/a b", REFUSED, [2, 2]),
    (b"/to\xe4/z", b"/to\xe4/to\xe4", REFUSED, [3, 3]),
    (b"/x y", b"/x y/z/x y", REFUSED, [1, 3]),
];

pub fn cases() -> Vec<Asked> {
    let line = |class| move |(old, new, fate, steps): Line| asked(class, old, new, fate, steps);
    let allowed = OLD.into_iter().chain(BEFORE).map(line("allowed elsewhere"));
    allowed.chain(FINAL.into_iter().map(line("not at the end of new"))).collect()
}
