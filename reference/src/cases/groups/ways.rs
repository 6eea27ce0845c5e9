//! Everything that asks a permission, and some that asks none: each allowed by a further group only, and each denied by one.

use super::{denied, others_but, planned, stranger, tree_with, with, MOST, STRANGER};
use crate::cases::rename::{case, request, RenameCase, RenameCases, Told};
use crate::cases::trees::for_renames::{inode_at, GROUP};
use crate::model::request::{Operand, CURRENT};

/// Which inode is asked for which bit, and the counts at which it refuses; nothing if it is never asked.
struct Way {
    inode: &'static str,
    bit: u16,
    current: &'static str,
    paths: [(u8, &'static str); 2],
    refusal: Option<[u16; 2]>,
    told: Told,
}

const SEARCH: u16 = 1;
const WRITE: u16 = 2;

/// Two names that are reached by handles: by an open one, which asks its directory, and by one opened for search.
const F: (u8, &str) = (1, "f");
const NEW: (u8, &str) = (2, "new");

type Paths = [(u8, &'static str); 2];

const fn search(inode: &'static str, paths: Paths, refusal: [u16; 2], steps: [u16; 2]) -> Way {
    Way { inode, bit: SEARCH, current: "/", paths, refusal: Some(refusal), told: planned(7, steps) }
}

const fn old(inode: &'static str, path: &'static str, at: u16, steps: u16) -> Way {
    search(inode, [(CURRENT, path), NEW], [at, 0], [steps, 1])
}

const fn new(inode: &'static str, path: &'static str, at: u16, steps: u16) -> Way {
    search(inode, [F, (CURRENT, path)], [1, at], [1, steps])
}

const fn write(inode: &'static str, old: &'static str, new: &'static str, rows: u8, steps: [u16; 2]) -> Way {
    let paths = [(CURRENT, old), (CURRENT, new)];
    Way { inode, bit: WRITE, current: "/", paths, refusal: Some(steps), told: planned(rows, steps) }
}

const fn unasked(way: Way) -> Way {
    Way { refusal: None, ..way }
}

/// The first component, an inner one, the last one; behind a symlink, in a text, for dots.
const SEARCHED: [Way; 20] = [
    old("/", "/w/p/f", 1, 3),
    old("/w", "/w/p/f", 2, 3),
    old("/w/p", "/w/p/f", 3, 3),
    old("/w/p/d", "/w/p/d/file", 4, 4),
    old("/w", "/lp/f", 3, 4),
    old("/w/p", "/lp/f", 4, 4),
    old("/w/p/d", "/ld/file", 5, 5),
    old("/w/p/d/e", "/w/q/in/file", 8, 8),
    old("/w/q", "/w/q/../p/f", 3, 5),
    search("/w/p", [F, NEW], [1, 0], [1, 1]),
    new("/", "/w/q/new", 1, 3),
    new("/w", "/w/q/new", 2, 3),
    new("/w/q", "/w/q/new", 3, 3),
    new("/w/p/d/e", "/w/p/d/e/new", 5, 5),
    new("/w", "/ld/new", 3, 5),
    new("/w/p/d", "/ld/new", 5, 5),
    new("/w/p/d/e", "/w/p/d/e/out/new", 5, 10),
    new("/w/q", "/w/p/d/e/out/new", 10, 10),
    new("/w/q", "/w/q/../p/d/new", 3, 6),
    Way { current: "/w/q", ..search("/w/q", [F, (CURRENT, "new")], [1, 1], [1, 1]) },
];

/// Step 5 for both parents, then step 9.
const WRITTEN: [Way; 10] = [
    write("/w/p", "/w/p/f", "/w/q/new", 7, [3, 3]),
    write("/w/p", "/w/p/f", "/w/p/new", 6, [3, 3]),
    write("/w/p", "/w/p/s", "/w/q/empty", 8, [3, 3]),
    write("/w/q", "/w/p/f", "/w/q/new", 7, [3, 3]),
    write("/w/q", "/w/p/l", "/w/q/link", 9, [3, 3]),
    write("/", "/w/p/f", "/new", 7, [3, 1]),
    write("/", "/ld", "/w/q/new", 7, [1, 3]),
    write("/w/p/s", "/w/p/s", "/w/q/new", 7, [3, 3]),
    write("/w/p/s", "/w/p/s", "/w/q/empty", 8, [3, 3]),
    write("/w/p/d", "/w/p/d", "/w/q/new", 7, [3, 3]),
];

/// What a rename does not ask, whatever the group's bits are.
const NOT_ASKED: [Way; 6] = [
    unasked(write("/w/p/s", "/w/p/s", "/w/p/new", 6, [3, 3])),
    unasked(write("/w/p/f", "/w/p/f", "/w/q/new", 7, [3, 3])),
    unasked(write("/w/q/empty", "/w/p/s", "/w/q/empty", 8, [3, 3])),
    unasked(write("/w", "/w/p/s", "/w/q/new", 7, [3, 3])),
    unasked(write("/w/p", "/w/p/f", "/w/q/pf", 0, [3, 3])),
    unasked(search("/w/q", [F, NEW], [1, 1], [1, 1])),
];

/// The bit is the group's and not the others', or the other way round, and the owner's in neither case.
fn one(class: &'static str, turn: usize, way: &Way, is_in: bool, of_group: bool) -> RenameCase {
    let (has, lacks) = (0o7, 0o7 & !way.bit);
    let mode = if of_group { has << 3 | lacks } else { lacks << 3 | has };
    let tree = tree_with(&[(way.inode, mode, GROUP)]);
    let [old, new] = way.paths.map(|(start, path)| Operand::new(start, path.as_bytes()));
    let mut request = request("", "");
    (request.old, request.new, request.current) = (old, new, inode_at(&tree, way.current));
    let (count, place) = (1 + turn % MOST, 1 + turn % 5);
    let group = if is_in { GROUP } else { GROUP - 1 };
    request.who = stranger(&others_but(count.max(place), place, group));
    let refusal = way.refusal.filter(|_| is_in != of_group);
    case(class, &tree, request, refusal.map_or(way.told, denied))
}

fn all_of(class: &'static str, ways: &[Way]) -> RenameCases {
    let each = ways.iter().enumerate();
    let four = |(turn, way)| {
        let bits = [(true, true), (true, false), (false, true), (false, false)];
        bits.map(|(is_in, of_group)| one(class, turn, way, is_in, of_group))
    };
    each.flat_map(four).collect()
}

/// Both parents and the moved directory have a group each, and only a group may write: which of them refuses.
fn a_group_each() -> RenameCases {
    let tree = tree_with(&[("/w/p", 0o075, 61), ("/w/q", 0o075, 62), ("/w/p/s", 0o075, 63)]);
    let lists: [(u32, &[u32], bool); 9] = [
        (300, &[61, 62, 63], true),
        (300, &[63, 1001, 62, 1002, 61], true),
        (61, &[63, 62], true),
        (63, &[62, 61], true),
        (300, &[61, 62], false),
        (300, &[61, 63], false),
        (300, &[62, 63], false),
        (62, &[61, 62], false),
        (62, &[], false),
    ];
    let of_list = |(group, list, allowed): (u32, &[u32], bool)| {
        let mut request = request("/w/p/s", "/w/q/new");
        request.who = with(STRANGER, group, list);
        let told = if allowed { planned(7, [3, 3]) } else { denied([3, 3]) };
        case("a group each", &tree, request, told)
    };
    lists.map(of_list).to_vec()
}

pub fn cases() -> RenameCases {
    let tables = [("search by a group", &SEARCHED[..]), ("write by a group", &WRITTEN), ("not asked", &NOT_ASKED)];
    let mut cases = tables.map(|(class, ways)| all_of(class, ways)).concat();
    cases.extend(a_group_each());
    cases
}
