//! Plan buffers of every length under every kind of answer: too short a buffer comes before all else.

use super::{case, request, steps, RenameCase, RenameCases, Told};
use crate::cases::random::Random;
use crate::cases::trees::for_renames::{rename_tree, rename_tree_with};
use crate::model::layout::{Layout, CONTENTS_LEN, JOURNAL};
use crate::model::numbers::{
    BAD_REQUEST, BUFFER_TOO_SHORT, EACCES, EBADF, EBUSY, EINVAL, EISDIR, ELOOP, ENAMETOOLONG, ENOENT, ENOTDIR,
    INCONSISTENT, JOURNAL_PENDING,
};
use crate::model::plan::PLAN_LEN;
use crate::vectors::Buffer;

const CLASS: &str = "buffers";

const LENGTHS: [u16; 9] = [0, 1, 72, 646, 647, 648, 649, 656, 1024];

const FILLS: [u8; 5] = [0, 255, 1, 85, 170];

fn on_the_tree(old: &str, new: &str, told: Told) -> RenameCase {
    case(CLASS, &rename_tree(), request(old, new), told)
}

/// Renames that plan rows, and ones that are refused for their types, a walk or the request.
fn answers() -> RenameCases {
    let planned = |rows: u8| Told { number: 0, rows, steps: None };
    let long = "/".repeat(256);
    let mut cases = vec![
        on_the_tree("/w/p/f", "/w/p/new", planned(6)),
        on_the_tree("/w/p/f", "/w/q/new", planned(7)),
        on_the_tree("/w/p/f", "/w/q/file", planned(8)),
        on_the_tree("/w/p/f", "/w/q/link", planned(9)),
        on_the_tree("/w/p/f", "/w/q/pf", planned(0)),
        on_the_tree("/w/p/f", "/w/q/empty", Told::refused(EISDIR)),
        on_the_tree("", "/w/p/new", Told::refused(ENOENT)),
        on_the_tree("/w/p/f", "/", Told::refused(EBUSY)),
        on_the_tree("/w/p/f", &long, Told::refused(ENAMETOOLONG)),
        on_the_tree("/w/p/f/x", "/w/p/new", Told::refused(ENOTDIR)),
        on_the_tree("/w/p/f", "/w/p/..", Told::refused(EINVAL)),
        on_the_tree("/loop/f", "/w/p/new", Told::refused(ELOOP)),
        on_the_tree("/w/p/f\0", "/w/p/new", Told::refused(BAD_REQUEST)),
    ];
    let mut nowhere = on_the_tree("/w/p/f", "/w/p/new", Told::refused(BAD_REQUEST));
    nowhere.request.current = u16::MAX;
    let mut closed = on_the_tree("f", "/w/p/new", Told::refused(EBADF));
    closed.request.old.start = 3;
    let no_search = case(CLASS, &rename_tree_with("/w/q", 0o666), request("/w/p/f", "/w/q/new"), Told::refused(EACCES));
    cases.extend([nowhere, closed, no_search]);
    cases
}

/// The layout, the journal record and another record damaged in one byte; then two of them.
fn damaged() -> RenameCases {
    let home = rename_tree().encode();
    let journal = Layout::read(&home).expect("the layout is right").offsets[JOURNAL];
    let places: [(&[usize], u8); 6] = [
        (&[0], INCONSISTENT),
        (&[journal + 9], JOURNAL_PENDING),
        (&[CONTENTS_LEN + 12], INCONSISTENT),
        (&[0, journal], INCONSISTENT),
        (&[journal, CONTENTS_LEN + 12], JOURNAL_PENDING),
        (&[0, journal, CONTENTS_LEN], INCONSISTENT),
    ];
    let case = |(places, number): (&[usize], u8)| {
        let mut case = on_the_tree("/w/p/f", "/w/p/new", Told::refused(number));
        places.iter().for_each(|&at| case.image[at] ^= 1);
        case
    };
    places.map(case).to_vec()
}

pub fn cases(random: &mut Random) -> RenameCases {
    let answers = [answers(), damaged(), steps::one_of_each_step(CLASS, random)].concat();
    let mut cases = vec![];
    for (i, case) in answers.iter().enumerate() {
        for (j, len) in LENGTHS.into_iter().enumerate() {
            let short = usize::from(len) < PLAN_LEN;
            let told = if short { Some(Told::refused(BUFFER_TOO_SHORT)) } else { case.told };
            let buffer = Some(Buffer { len, fill: FILLS[(i + j) % FILLS.len()] });
            cases.push(RenameCase { buffer, told, ..case.clone() });
        }
    }
    cases
}
