//! Flags that are wrong: both of them, or a bit that is none. What comes ahead of them, and all that comes after.

use super::{flagged, refused, EXCHANGE, NO_REPLACE};
use crate::cases::random::Random;
use crate::cases::rename::{case, steps, RenameCase, RenameCases, Told};
use crate::cases::trees::builder::Tree;
use crate::cases::trees::for_renames::{inode_at, rename_tree};
use crate::model::layout::{Layout, CONTENTS_LEN, JOURNAL};
use crate::model::numbers::{BAD_REQUEST, BUFFER_TOO_SHORT, EINVAL, INCONSISTENT, JOURNAL_PENDING};
use crate::model::permission::Credentials;
use crate::vectors::Buffer;

const WRONG: &str = "wrong flags";
const AHEAD: &str = "ahead of the flags";

/// Both flags; every other bit alone, with one flag, and with both.
fn wrong_flags() -> Vec<u32> {
    let bits = (2..32).map(|place| 1 << place);
    let mut flags = vec![NO_REPLACE | EXCHANGE];
    flags.extend(bits.flat_map(|bit: u32| [0, 1, 2, 3].map(|flag| bit | flag)));
    flags.extend([0, 1, 2, 3].map(|less| u32::MAX - less));
    flags
}

/// Requests of every fate: with rows, with none, refused by a walk of either path, by the name, by a step.
const REQUESTS: [(&str, &str); 16] = [
    ("/w/p/f", "/w/q/file"),
    ("/w/p/f", "/w/q/new"),
    ("/w/p/f", "/w/p/f2"),
    ("/w/p/s", "/w/p/s"),
    ("", "/w/q/file"),
    ("/", "/w/q/file"),
    ("/w/p/none", "/w/q/file"),
    ("/w/p/f/", "/w/q/file"),
    ("/w/p/f", ""),
    ("/w/p/f", "/w/q/none/x"),
    ("/w/p/f", "/w/q/.."),
    ("/w/p/f", "/w/q/n~w"),
    ("/w/p/f", "/w/q/file/"),
    ("/r/p/f", "/r/q/file"),
    ("/w/p/d", "/w/p/d/e/file"),
    ("/loop/f", "/w/q/file"),
];

fn of_every_fate() -> RenameCases {
    let told = refused(EINVAL, [0, 0]);
    let mut cases = vec![];
    for (turn, flags) in wrong_flags().into_iter().enumerate() {
        let requests = REQUESTS.iter().skip(turn % 8).step_by(8);
        cases.extend(requests.map(|(old, new)| case(WRONG, &rename_tree(), flagged(flags, old, new), told)));
    }
    for (old, new) in REQUESTS {
        cases.extend([3, 4, 1 << 31].map(|flags| case(WRONG, &rename_tree(), flagged(flags, old, new), told)));
    }
    cases
}

/// Every step of a rename, which wrong flags come ahead of.
fn ahead_of_the_steps(random: &mut Random) -> RenameCases {
    let of_flags = |flags: u32, mut case: RenameCase| {
        case.request.flags = flags;
        RenameCase { told: Some(refused(EINVAL, [0, 0])), ..case }
    };
    let scenes = steps::one_of_each_step(WRONG, random);
    scenes.into_iter().flat_map(|case| [3, 6].map(|flags| of_flags(flags, case.clone()))).collect()
}

/// The flags of every fate: right ones and wrong ones.
const ANY: [u32; 6] = [0, NO_REPLACE, EXCHANGE, 3, 4, 1 << 31];

fn ahead(tree: &Tree, flags: u32, number: u8) -> RenameCase {
    case(AHEAD, tree, flagged(flags, "/w/p/f", "/w/q/file"), refused(number, [0, 0]))
}

/// A short buffer, and the image damaged in one byte.
fn buffers_and_images(tree: &Tree, flags: u32) -> RenameCases {
    let journal = Layout::read(&tree.encode()).expect("the layout is right").offsets[JOURNAL];
    let damaged = |number: u8, at: usize| {
        let mut case = ahead(tree, flags, number);
        case.image[at] ^= 1;
        case
    };
    let mut cases: RenameCases = [0, 8, 647]
        .map(|len| RenameCase { buffer: Some(Buffer { len, fill: 90 }), ..ahead(tree, flags, BUFFER_TOO_SHORT) })
        .to_vec();
    cases.push(damaged(INCONSISTENT, 0));
    cases.push(damaged(JOURNAL_PENDING, journal));
    cases.push(damaged(JOURNAL_PENDING, journal + 1));
    cases.push(damaged(INCONSISTENT, CONTENTS_LEN + 12));
    cases
}

/// Each clause of a wrong request.
fn wrong_requests(tree: &Tree, flags: u32) -> RenameCases {
    let wrong = |change: &dyn Fn(&mut RenameCase)| {
        let mut case = ahead(tree, flags, BAD_REQUEST);
        change(&mut case);
        case
    };
    let many = Credentials { further: (1..=17).collect(), ..Credentials::new(0, 0) };
    vec![
        wrong(&|case| case.request.current = u16::MAX),
        wrong(&|case| case.request.current = inode_at(tree, "/w/q/file")),
        wrong(&|case| case.request.old.path.push(0)),
        wrong(&|case| case.request.new.path.push(0)),
        wrong(&|case| case.request.who = many.clone()),
    ]
}

/// Sixteen groups are right, and the flags answer.
fn right_requests(tree: &Tree) -> RenameCases {
    let sixteen = Credentials { further: (1..=16).collect(), ..Credentials::new(100, 50) };
    let told = [(0, 8), (EXCHANGE, 8)].map(|(flags, rows)| (flags, Told { number: 0, rows, steps: Some([3, 3]) }));
    let wrong = [3, 4].map(|flags| (flags, refused(EINVAL, [0, 0])));
    let of = |(flags, told): (u32, Told)| {
        let mut request = flagged(flags, "/w/p/f", "/w/q/file");
        request.who = sixteen.clone();
        case(AHEAD, tree, request, told)
    };
    told.into_iter().chain(wrong).map(of).collect()
}

pub fn cases(random: &mut Random) -> RenameCases {
    let tree = rename_tree();
    let ahead = ANY.iter().flat_map(|&flags| [buffers_and_images(&tree, flags), wrong_requests(&tree, flags)].concat());
    let all = [of_every_fate(), ahead_of_the_steps(random), ahead.collect(), right_requests(&tree)];
    all.concat()
}
