//! Sixteen further groups, and more: a list that is too long is refused behind the image, and ahead of both walks.

use super::{others, others_but, planned, stranger, tree_with, with, MOST, STRANGER};
use crate::cases::rename::{case, request, RenameCase, RenameCases, Told};
use crate::cases::trees::for_renames::{rename_tree, GROUP, OWNER};
use crate::model::layout::{Layout, CONTENTS_LEN, JOURNAL};
use crate::model::numbers::{
    BAD_REQUEST, BUFFER_TOO_SHORT, EBADF, EBUSY, EISDIR, ENAMETOOLONG, ENOENT, ENOTDIR, EROFS, INCONSISTENT,
    JOURNAL_PENDING,
};
use crate::model::permission::{Credentials, SUPERUSER};
use crate::model::request::{Operand, Request, CURRENT};
use crate::vectors::{Buffer, MOST_GROUPS};

const TOO_MANY: [usize; 3] = [17, 18, 24];

const WRONG: Told = Told { number: BAD_REQUEST, rows: 0, steps: Some([0, 0]) };

const fn refused(number: u8, steps: [u16; 2]) -> Told {
    Told { number, rows: 0, steps: Some(steps) }
}

/// Old's start and path, new's path, and what becomes of them if the list is short enough: something to do, nothing to
/// do, each kind of refusal that is near the request's, and some that come later.
fn fates() -> Vec<(u8, &'static str, String, Told)> {
    let long = "/".repeat(256);
    let told = [
        (CURRENT, "/w/p/f", "/w/q/new", planned(7, [3, 3])),
        (CURRENT, "/w/p/f", "/w/q/pf", planned(0, [3, 3])),
        (CURRENT, "", "/w/q/new", refused(ENOENT, [0, 0])),
        (0, "f", "/w/q/new", refused(EBADF, [0, 0])),
        (CURRENT, "//", "/w/q/new", refused(EBUSY, [0, 0])),
        (CURRENT, "/w/p/none", "/w/q/new", refused(ENOENT, [3, 0])),
        (CURRENT, "/w/p/f/x", "/w/q/new", refused(ENOTDIR, [4, 0])),
        (CURRENT, "/w/p/f", "", refused(ENOENT, [3, 0])),
        (CURRENT, "/w/p/f", &long, refused(ENAMETOOLONG, [3, 0])),
        (CURRENT, "/r/p/f", "/r/q/new", refused(EROFS, [3, 3])),
        (CURRENT, "/w/p/f", "/w/q/empty", refused(EISDIR, [3, 3])),
    ];
    told.map(|(start, old, new, told)| (start, old, new.to_string(), told)).to_vec()
}

/// Anyone may do anything in the tree: the owner, somebody in the group by the list, somebody else, the superuser.
fn callers(count: usize) -> [Credentials; 4] {
    [
        with(SUPERUSER, 0, &others(count)),
        with(OWNER, GROUP, &others(count)),
        stranger(&others_but(count, count, GROUP)),
        stranger(&others(count)),
    ]
}

fn of_every_fate() -> RenameCases {
    let tree = rename_tree();
    let mut cases = vec![];
    for (i, (start, old, new, told)) in fates().into_iter().enumerate() {
        let mut request = request("", &new);
        request.old = Operand::new(start, old.as_bytes());
        for who in callers(MOST).into_iter().skip(i % 2).step_by(2) {
            cases.push(case("sixteen groups", &tree, Request { who, ..request.clone() }, told));
        }
        for (j, count) in TOO_MANY.into_iter().enumerate() {
            let [superuser, somebody @ ..] = callers(count);
            for who in [superuser, somebody[(i + j) % somebody.len()].clone()] {
                cases.push(case("too many groups", &tree, Request { who, ..request.clone() }, WRONG));
            }
        }
    }
    cases
}

/// It is the numbers in the list that count, however few groups they are and whether or not one of them would help.
fn of_every_list() -> RenameCases {
    let tree = tree_with(&[("/w/p", 0o070, GROUP)]);
    let lists = [
        vec![GROUP; MOST + 1],
        vec![STRANGER; MOST + 1],
        vec![0; MOST_GROUPS],
        others_but(MOST + 1, 1, GROUP),
        others_but(MOST + 1, MOST, GROUP),
        others_but(MOST + 1, MOST + 1, GROUP),
    ];
    let of_list = |list: Vec<u32>| {
        let request = Request { who: stranger(&list), ..request("/w/p/f", "/w/q/new") };
        case("too many groups", &tree, request, WRONG)
    };
    lists.map(of_list).to_vec()
}

/// Bytes of the image that are changed, and the number that comes ahead of the request's.
fn damages() -> [(Vec<usize>, Option<u8>); 6] {
    let journal = Layout::read(&rename_tree().encode()).expect("the layout is right").offsets[JOURNAL];
    let record = CONTENTS_LEN + 12;
    [
        (vec![], None),
        (vec![0], Some(INCONSISTENT)),
        (vec![journal + 9], Some(JOURNAL_PENDING)),
        (vec![record], Some(INCONSISTENT)),
        (vec![journal, record], Some(JOURNAL_PENDING)),
        (vec![0, journal, record], Some(INCONSISTENT)),
    ]
}

fn damaged(places: &[usize], who: Credentials, old: &str, number: u8) -> RenameCase {
    let request = Request { who, ..request(old, "/w/q/new") };
    let mut case = case("order of refusal", &rename_tree(), request, refused(number, [0, 0]));
    places.iter().for_each(|&at| case.image[at] ^= 1);
    case
}

/// The buffer and the image come first; an empty path, the first thing of old's walk, comes after.
fn behind_the_image() -> RenameCases {
    let mut cases = vec![];
    for (i, (places, ahead)) in damages().into_iter().enumerate() {
        for (j, count) in TOO_MANY.into_iter().enumerate() {
            let who = callers(count)[(i + j) % 4].clone();
            let old = ["/w/p/f", ""][(i + j) % 2];
            let long_enough = damaged(&places, who.clone(), old, ahead.unwrap_or(BAD_REQUEST));
            let buffer = Some(Buffer { len: [0, 647, 72][j], fill: 90 });
            let short = RenameCase { buffer, ..damaged(&places, who, old, BUFFER_TOO_SHORT) };
            cases.extend([long_enough, short]);
        }
    }
    cases
}

/// Beside the other faults of a request, each of which is told by the same number, and alone.
fn beside_other_faults() -> RenameCases {
    let mut cases = vec![];
    for count in [MOST, MOST + 1, MOST_GROUPS] {
        for (current, old, new) in [(u16::MAX, "/w/p/f", "/w/q/new"), (0, "/w/p/f\0", "/w/q/new"), (0, "", "\0")] {
            let who = stranger(&others(count));
            cases.push(case("order of refusal", &rename_tree(), Request { who, current, ..request(old, new) }, WRONG));
        }
    }
    cases
}

pub fn cases() -> RenameCases {
    [of_every_fate(), of_every_list(), behind_the_image(), beside_other_faults()].concat()
}
