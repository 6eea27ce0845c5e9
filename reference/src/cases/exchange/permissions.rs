//! Step 9 of an exchange: write permission on each directory that gets another parent, by every class of the caller's.

use super::{straight, BETWEEN, EXCHANGE, WITHIN};
use crate::cases::rename::{RenameCase, RenameCases};
use crate::cases::trees::for_renames::{inode_at, rename_tree, GROUP, OWNER};
use crate::model::numbers::{DONE, EACCES};
use crate::model::permission::Credentials;

const CLASS: &str = "write permission";

/// Callers, and the place of the class that applies to each; the superuser has none.
fn callers() -> [(Credentials, Option<u16>); 5] {
    let further = Credentials { further: vec![7, GROUP], ..Credentials::new(300, 300) };
    [
        (Credentials::new(OWNER, GROUP), Some(6)),
        (Credentials::new(300, GROUP), Some(3)),
        (further, Some(3)),
        (Credentials::new(300, 300), Some(0)),
        (Credentials::new(0, 0), None),
    ]
}

fn with_modes(paths: (&str, &str), modes: [u16; 2], who: &Credentials, number: u8, rows: u8) -> RenameCase {
    let mut tree = rename_tree();
    for (path, mode) in [paths.0, paths.1].into_iter().zip(modes) {
        let number = usize::from(inode_at(&tree, path));
        tree.inodes[number].mode = mode;
    }
    let mut case = straight(CLASS, &tree, EXCHANGE, paths, number, rows);
    case.request.who = who.clone();
    case
}

/// Search is left to everybody, so that only write is in doubt.
const SEARCH: u16 = 0o111;

/// Two directories, of which each may be written by some classes, and a directory with something else.
fn between() -> RenameCases {
    let mut cases = vec![];
    let modes = [0o777, 0o555, 0o755, 0o575, 0o557, 0o111, 0o333];
    for (turn, (who, class)) in callers().into_iter().enumerate() {
        let may = |mode: u16| class.is_none_or(|shift| mode >> shift & 2 != 0);
        let answer = |allowed: bool| if allowed { (DONE, BETWEEN) } else { (EACCES, 0) };
        for (one, other) in modes.iter().flat_map(|one| modes.iter().map(move |other| (one | SEARCH, other | SEARCH))) {
            // A third of the pairs is left out for each caller, another one in turn, to keep the file small.
            if (usize::from(one + other) + turn) % 3 == 0 {
                continue;
            }
            let (number, rows) = answer(may(one) && may(other));
            cases.push(with_modes(("/w/p/s", "/w/q/full"), [one, other], &who, number, rows));
        }
        for mode in modes {
            let (number, rows) = answer(may(mode));
            cases.push(with_modes(("/w/p/d", "/w/q/file"), [mode, 0], &who, number, rows));
            cases.push(with_modes(("/w/p/l", "/w/q/empty"), [0, mode], &who, number, rows));
        }
    }
    cases
}

/// Neither files nor directories that keep their parent are asked.
fn not_asked() -> RenameCases {
    let mut cases = vec![];
    for (who, _) in callers() {
        for (paths, rows) in [
            (("/w/p/s", "/w/p/d"), WITHIN),
            (("/w/p/s", "/w/p/file"), WITHIN),
            (("/w/p/l", "/w/p/full"), WITHIN),
            (("/w/p/f", "/w/q/file"), BETWEEN),
            (("/w/p/l", "/w/q/kept"), BETWEEN),
        ] {
            cases.push(with_modes(paths, [0, 0], &who, DONE, rows));
        }
    }
    cases
}

pub fn cases() -> RenameCases {
    [between(), not_asked()].concat()
}
