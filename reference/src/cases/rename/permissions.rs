//! The write bits of both parents and of a moved directory, and the sticky bit, for every kind of caller.

use super::{case, request, RenameCase, RenameCases, Told};
use crate::cases::trees::for_renames::{inode_at, rename_tree, rename_tree_with, GROUP, OWNER};
use crate::model::numbers::{EACCES, EPERM};
use crate::model::permission::Credentials;

/// Callers, each with the one write bit that decides for it; nothing for the superuser.
const CALLERS: [(u32, u32, Option<u16>); 9] = [
    (0, 300, None),
    (0, GROUP, None),
    (OWNER, GROUP, Some(0o200)),
    (OWNER, 300, Some(0o200)),
    (300, GROUP, Some(0o020)),
    (300, 300, Some(0o002)),
    (300, 0, Some(0o002)),
    (GROUP, OWNER, Some(0o002)),
    (OWNER + 65_536, GROUP + 65_536, Some(0o002)),
];

/// The three write bits in every combination, where all may search and where bits above the nine are set too.
fn modes() -> Vec<u16> {
    let bits = |i: u16| (i & 4) << 5 | (i & 2) << 3 | (i & 1) << 1;
    (0..8).flat_map(|i| [0o555, 0o6111].map(|rest| bits(i) | rest)).collect()
}

/// Which inode has the mode, the rename, its rows, and whether the bit matters to it.
struct Way {
    inode: &'static str,
    paths: (&'static str, &'static str),
    rows: u8,
    asked: bool,
}

const fn way(inode: &'static str, paths: (&'static str, &'static str), rows: u8, asked: bool) -> Way {
    Way { inode, paths, rows, asked }
}

const WAYS: [Way; 14] = [
    way("/w/p", ("/w/p/f", "/w/q/new"), 7, true),
    way("/w/p", ("/w/p/f", "/w/p/new"), 6, true),
    way("/w/p", ("/w/p/s", "/w/q/empty"), 8, true),
    way("/w/q", ("/w/p/f", "/w/q/new"), 7, true),
    way("/w/q", ("/w/p/l", "/w/q/link"), 9, true),
    way("/w/q", ("/w/p/s", "/w/q/new"), 7, true),
    way("/w/p/s", ("/w/p/s", "/w/q/new"), 7, true),
    way("/w/p/s", ("/w/p/s", "/w/q/empty"), 8, true),
    way("/w/p/s", ("/w/p/s", "/w/p/new"), 6, false),
    way("/w/p/s", ("/w/p/s", "/w/p/empty"), 7, false),
    way("/w/p/f", ("/w/p/f", "/w/q/new"), 7, false),
    way("/w/q/file", ("/w/p/f", "/w/q/file"), 8, false),
    way("/w/q/empty", ("/w/p/s", "/w/q/empty"), 8, false),
    way("/w", ("/w/p/s", "/w/q/new"), 7, false),
];

fn write_case(way: &Way, mode: u16, (user, group, bit): (u32, u32, Option<u16>)) -> RenameCase {
    let denied = way.asked && bit.is_some_and(|bit| mode & bit == 0);
    let told = if denied { Told::refused(EACCES) } else { Told { number: 0, rows: way.rows, steps: None } };
    let mut request = request(way.paths.0, way.paths.1);
    request.who = Credentials::new(user, group);
    case("write permission", &rename_tree_with(way.inode, mode), request, told)
}

fn writing() -> RenameCases {
    let modes = modes();
    let mut cases = vec![];
    for (i, way) in WAYS.iter().enumerate() {
        for (j, caller) in CALLERS.into_iter().enumerate() {
            for turn in 0..2 {
                cases.push(write_case(way, modes[(3 * i + 5 * j + 7 * turn) % modes.len()], caller));
            }
        }
    }
    cases
}

/// Somebody who owns one of a rename's inodes, or none.
const SOMEBODY: u32 = 300;

/// Directories with the sticky bit among the old parent, the new one and the moved inode.
const STICKY: [[bool; 3]; 6] = [
    [true, false, false],
    [true, true, false],
    [true, true, true],
    [false, true, false],
    [false, false, true],
    [false, false, false],
];

const STICKY_RENAMES: [(&str, &str, u8); 4] =
    [("/w/p/f", "/w/q/new", 7), ("/w/p/l", "/w/q/link", 9), ("/w/p/s", "/w/q/empty", 8), ("/w/p/f", "/w/q/kept", 8)];

fn sticky_case(
    sticky: [bool; 3],
    owned: Option<usize>,
    who: Credentials,
    (old, new, rows): (&str, &str, u8),
) -> RenameCase {
    let mut tree = rename_tree();
    let mut paths = vec![old, "/w/p", "/w/q"];
    paths.extend(Some(new).filter(|new| !new.ends_with("new")));
    let inodes: Vec<usize> = paths.iter().map(|path| usize::from(inode_at(&tree, path))).collect();
    for (inode, _) in [inodes[1], inodes[2], inodes[0]].into_iter().zip(sticky).filter(|(_, sticky)| *sticky) {
        tree.inodes[inode].mode |= 0o1000;
    }
    if let Some(&inode) = owned.and_then(|owned| inodes.get(owned)) {
        tree.inodes[inode].owner = SOMEBODY;
    }
    let may_take = who.user == 0 || matches!((who.user, owned), (SOMEBODY, Some(0 | 1)) | (OWNER, _));
    let may_replace = who.user == 0 || matches!((who.user, owned), (SOMEBODY, Some(2 | 3)) | (OWNER, _));
    let replaces = inodes.len() == 4;
    let refused = sticky[0] && !may_take || sticky[1] && replaces && !may_replace;
    let told = if refused { Told::refused(EPERM) } else { Told { number: 0, rows, steps: None } };
    let mut request = request(old, new);
    request.who = who;
    case("sticky bit", &tree, request, told)
}

/// The owner of the tree has lost one inode at most, and so owns the moved one or its parent, and the replaced one or its.
fn sticky() -> RenameCases {
    let callers = [(SOMEBODY, SOMEBODY), (SOMEBODY, GROUP), (SOMEBODY, 0), (OWNER, GROUP), (0, 0), (0, SOMEBODY)];
    let mut cases = vec![];
    for (i, sticky) in STICKY.into_iter().enumerate() {
        for (j, (user, group)) in callers.into_iter().enumerate() {
            for (k, owned) in [None, Some(0), Some(1), Some(2), Some(3)].into_iter().enumerate() {
                let rename = STICKY_RENAMES[(i + j + k) % STICKY_RENAMES.len()];
                cases.push(sticky_case(sticky, owned, Credentials::new(user, group), rename));
            }
        }
    }
    cases
}

/// No other bit above the nine passes for the sticky one.
fn other_high_bits() -> RenameCases {
    let case = |mode: u16| {
        let mut request = request("/w/p/f", "/w/p/new");
        request.who = Credentials::new(SOMEBODY, SOMEBODY);
        let told = match mode & 0o1000 {
            0 => Told { number: 0, rows: 6, steps: None },
            _ => Told::refused(EPERM),
        };
        case("sticky bit", &rename_tree_with("/w/p", mode), request, told)
    };
    [0o777, 0o1777, 0o2777, 0o4777, 0o6777, 0o3777, 0o5777, 0o7777, 0o003, 0o1003].map(case).to_vec()
}

pub fn cases() -> RenameCases {
    [writing(), sticky(), other_high_bits()].concat()
}
