//! Final names behind symlinks that have been followed, and symlinks that are final themselves.

use super::{asked, Asked, Fate, Rows, Walk, REFUSED};
use crate::cases::trees::for_names::{N, ON_N, SEARCH_N};
use crate::model::numbers::{EACCES, ENOTDIR};

/// New with the count of its walk, and its fate; old is a file.
const LINES: [(&[u8], u16, Fate); 20] = [
    // A relative text, and an absolute one.
    (b"/rel/u~", 3, REFUSED),
    (b"/rel/uv", 3, Rows(7)),
    (b"rel///u~/", 3, REFUSED),
    (b"/rel/a b", 3, REFUSED),
    (b"/rel/mno", 3, Rows(8)),
    (b"/abs/u~", 3, REFUSED),
    (b"/abs/uv", 3, Rows(7)),
    (b"/abs/f~", 3, REFUSED),
    (b"/abs/f2", 3, Rows(0)),
    // A text that ends in a slash, behind a name that is not portable, and one with such a name in it.
    (b"/x y/up/u~", 5, REFUSED),
    (b"/x y/up/uv", 5, Rows(7)),
    (b"/to\xe4/z/u~", 4, REFUSED),
    (b"/to\xe4/z/uv", 4, Rows(7)),
    (b"/to\xe4/u\xe4", 3, REFUSED),
    // Two of them.
    (b"/to\xe4/up/u~", 6, REFUSED),
    (b"/to\xe4/up/uv", 6, Rows(7)),
    // A final one is a name like any other.
    (b"/to\xe4", 1, REFUSED),
    (b"/to\xe4/", 1, REFUSED),
    (b"/rel", 1, Rows(9)),
    (b"/rel/", 1, Walk(ENOTDIR)),
];

/// From handles, of which one is opened for search.
fn from_handles() -> Vec<Asked> {
    let class = "behind a handle";
    let mut all = vec![];
    for (start, unasked) in [(ON_N, 0), (SEARCH_N, 1)] {
        for (new, fate) in [(&b"u~"[..], REFUSED), (b"a b/", REFUSED), (b"uv", Rows(7)), (b"f2", Rows(0))] {
            all.push(asked(class, b"/p/f", new, fate, [2, 1]).new_from(start));
        }
        // Where nobody may search, only the first component is let through, and only unasked.
        let denied = if unasked == 1 { REFUSED } else { Walk(EACCES) };
        let below = asked(class, b"/p/f", b"./u~", Walk(EACCES), [2, 1 + unasked]);
        all.extend([asked(class, b"/p/f", b"u~", denied, [2, 1]), below].map(|it| it.new_from(start).mode(N, 0o666)));
    }
    all
}

pub fn cases() -> Vec<Asked> {
    let line = |(new, steps, fate)| asked("behind a symlink", b"/p/f", new, fate, [2, steps]);
    LINES.into_iter().map(line).chain(from_handles()).collect()
}
