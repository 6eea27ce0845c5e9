//! One directory of the walk tree with every mode, asked for search by every kind of caller; and a file that nobody else may search.

use super::{from_current, request, Told, WalkCase, WalkCases};
use crate::cases::trees::for_walks::{walk_tree, D, E, F, GROUP, ON_D, OWNER, ROOT, SEARCH_D, SEARCH_ROOT};
use crate::model::numbers::{DONE, EACCES, ENOTDIR};
use crate::model::permission::Credentials;
use crate::model::request::{Operand, Request, CURRENT};

const CLASS: &str = "permission";

/// A path, where it starts, and the component at which the directory is asked; nothing if it never is.
struct Way {
    directory: u16,
    current: u16,
    start: u8,
    path: &'static [u8],
    asked_at: Option<u16>,
    steps: u16,
}

const fn way(
    directory: u16,
    (current, start): (u16, u8),
    path: &'static [u8],
    asked_at: Option<u16>,
    steps: u16,
) -> Way {
    Way { directory, current, start, path, asked_at, steps }
}

const WAYS: [Way; 14] = [
    way(D, (ROOT, CURRENT), b"/d/f", Some(2), 2),
    way(D, (E, CURRENT), b"/d/e/f", Some(2), 3),
    way(ROOT, (ROOT, CURRENT), b"/d/f", Some(1), 2),
    way(ROOT, (ROOT, CURRENT), b"f", Some(1), 1),
    way(D, (D, CURRENT), b"f", Some(1), 1),
    way(D, (D, CURRENT), b"../f", Some(1), 2),
    way(D, (ROOT, ON_D), b"f", Some(1), 1),
    way(D, (ROOT, SEARCH_D), b"f", None, 1),
    way(D, (ROOT, SEARCH_D), b"../f", None, 2),
    way(D, (ROOT, SEARCH_D), b"./f", Some(2), 2),
    way(D, (ROOT, SEARCH_D), b"../d/f", Some(3), 3),
    way(D, (ROOT, SEARCH_D), b"dots/f", Some(2), 4),
    way(E, (ROOT, CURRENT), b"/d/e/../f", Some(3), 4),
    way(D, (ROOT, CURRENT), b"/s/f", Some(3), 3),
];

/// Callers, each with the one bit that decides for it; nothing for the superuser.
const CALLERS: [(u32, u32, Option<u16>); 9] = [
    (0, 300, None),
    (0, GROUP, None),
    (OWNER, GROUP, Some(0o100)),
    (OWNER, 300, Some(0o100)),
    (300, GROUP, Some(0o010)),
    (300, 300, Some(0o001)),
    (300, 0, Some(0o001)),
    (GROUP, OWNER, Some(0o001)),
    (OWNER + 65_536, GROUP + 65_536, Some(0o001)),
];

/// The three search bits in every combination, with all other bits clear, set, or the readers' and writers' alone.
fn modes() -> Vec<u16> {
    let bits = |i: u16| (i & 4) << 4 | (i & 2) << 2 | (i & 1);
    (0..8).flat_map(|i| [0, 0o7666, 0o666].map(|rest| bits(i) | rest)).collect()
}

fn case(way: &Way, mode: u16, (user, group, bit): (u32, u32, Option<u16>), as_old: bool) -> WalkCase {
    let denied = way.asked_at.filter(|_| bit.is_some_and(|bit| mode & bit == 0));
    let (number, steps) = denied.map_or((DONE, way.steps), |at| (EACCES, at));
    let probed = Operand::new(way.start, way.path);
    // Nobody is asked on this one.
    let open = Operand::new(SEARCH_ROOT, b"f");
    let (old, new, steps) = match as_old {
        true => (probed, open, [steps, u16::from(number == DONE)]),
        false => (open, probed, [1, steps]),
    };
    let mut tree = walk_tree();
    tree.inodes[usize::from(way.directory)].mode = mode;
    let request = Request { who: Credentials::new(user, group), current: way.current, ..request(old, new) };
    WalkCase { class: CLASS, tree, request, told: Some(Told { number, steps }) }
}

/// Every way with every caller; the modes take turns, and half of the cases have the way as new.
pub fn cases() -> WalkCases {
    let modes = modes();
    let mut cases = vec![];
    for (i, way) in WAYS.iter().enumerate() {
        for (j, caller) in CALLERS.into_iter().enumerate() {
            for turn in 0..4 {
                let mode = modes[(5 * i + 7 * j + 7 * turn) % modes.len()];
                cases.push(case(way, mode, caller, (i + j + turn) % 2 == 0));
            }
        }
    }
    cases
}

/// A component under somebody else's file, as old and as new: that it is no directory is told before that search is denied.
pub fn under_a_file() -> WalkCases {
    let mut tree = walk_tree();
    let file = &mut tree.inodes[usize::from(F)];
    (file.mode, file.owner, file.group) = (0o600, 200, 200);
    let (under, good) = (from_current(b"f/x"), from_current(b"/d/f"));
    let case = |old: &Operand, new: &Operand, steps| WalkCase {
        class: "not a directory",
        tree: tree.clone(),
        request: request(old.clone(), new.clone()),
        told: Some(Told { number: ENOTDIR, steps }),
    };
    vec![case(&under, &good, [2, 0]), case(&good, &under, [2, 2])]
}
