//! Names that are not portable: with either flag new's is refused, also where it exists; old's never is.

use super::{flagged, planned, refused, EXCHANGE, NO_REPLACE};
use crate::cases::rename::{case, RenameCases, Told};
use crate::cases::trees::for_names::names_tree;
use crate::model::numbers::{EEXIST, ENOENT, ENOTDIR, EPERM};

const CLASS: &str = "names that are not portable";

/// Old, new, and what no-replace and exchange answer. /p/f has a name /n/f~ and a name /n/f2, too.
fn lines() -> Vec<(&'static str, &'static str, Told, Told)> {
    let unportable = refused(EPERM, [2, 2]);
    vec![
        ("/p/f", "/n/a b", unportable, unportable),
        ("/p/f", "/n/c+d", unportable, unportable),
        ("/p/s", "/n/c+d/", unportable, unportable),
        ("/p/f", "/n/e:f", unportable, unportable),
        ("/p/f", "/n/e:f/", unportable, unportable),
        ("/p/f", "/n/new name", unportable, unportable),
        ("/p/f", "/n/new~/", unportable, unportable),
        ("/p/f", "/n/f~", unportable, unportable),
        ("/p/f", "/n/f2", refused(EEXIST, [2, 2]), planned(0, [2, 2])),
        ("/n/f~", "/n/f2", refused(EEXIST, [2, 2]), planned(0, [2, 2])),
        ("/p/old name", "/n/mno", refused(EEXIST, [2, 2]), planned(8, [2, 2])),
        ("/p/old name", "/p/f", refused(EEXIST, [2, 2]), planned(7, [2, 2])),
        ("/n/a b", "/n/dir", refused(EEXIST, [2, 2]), planned(7, [2, 2])),
        ("/n/c+d", "/p/s", refused(EEXIST, [2, 2]), planned(8, [2, 2])),
        ("/x y/z", "/p/f", refused(EEXIST, [2, 2]), planned(8, [2, 2])),
        ("/p/f", "/x y/z", refused(EEXIST, [2, 2]), planned(8, [2, 2])),
        ("/n/a b", "/n/new", planned(6, [2, 2]), refused(ENOENT, [2, 2])),
        ("/p/f", "/n/mno/", refused(ENOTDIR, [2, 2]), refused(ENOTDIR, [2, 2])),
        ("/p/none", "/n/a b", refused(ENOENT, [2, 0]), refused(ENOENT, [2, 0])),
    ]
}

pub fn cases() -> RenameCases {
    let mut cases = vec![];
    for (old, new, kept, exchanged) in lines() {
        for (flags, told) in [(NO_REPLACE, kept), (EXCHANGE, exchanged)] {
            cases.push(case(CLASS, &names_tree(), flagged(flags, old, new), told));
        }
    }
    cases
}
