//! The new side of the sticky bit beside everything else that a rename is refused for, which comes ahead of it or after it.

use super::Role::{Into, Moved, Replaced};
use super::{holder, scene, Scene, CALLER};
use crate::cases::rename::{RenameCase, RenameCases, Told};
use crate::cases::trees::builder::{Entry, Handle};
use crate::cases::trees::for_renames::{inode_at, CLOSED, FREE_SLOT};
use crate::model::layout::{Layout, CONTENTS_LEN, JOURNAL};
use crate::model::numbers::{
    BAD_REQUEST, BUFFER_TOO_SHORT, DONE, EACCES, EBUSY, EINVAL, EISDIR, EMLINK, ENOENT, ENOSPC, ENOTDIR, ENOTEMPTY,
    EPERM, EROFS, EXDEV, INCONSISTENT, JOURNAL_PENDING,
};
use crate::vectors::Buffer;

const CLASS: &str = "order of refusal";

/// A rename into a sticky directory, the modes of some inodes, its number while the bit keeps replaced from the caller, and
/// its number without that. The bit is nowhere else, so that the old side lets everybody pass, but for those of step 1.
type Meeting = (&'static str, &'static str, &'static [(&'static str, u16)], u8, u8);

const AHEAD: [Meeting; 11] = [
    // Step 1: the new name is one of moved's own, and the caller owns neither moved nor the directory.
    ("/w/p/f", "/w/p/f2", &[], DONE, DONE),
    ("/w/p/f", "/w/q/pf", &[], DONE, DONE),
    ("/w/p/l", "/w/q/pl", &[], DONE, DONE),
    ("/w/p/s", "/w/p/s", &[], DONE, DONE),
    // Steps 2 to 5.
    ("/r/p/f", "/r/q/file", &[], EROFS, EROFS),
    ("/w/p/f", "/o/q/file", &[], EXDEV, EXDEV),
    ("/w/p/s", "/w/q/mount", &[], EBUSY, EBUSY),
    ("/w/p/m", "/w/q/empty", &[], EBUSY, EBUSY),
    ("/w/p/f", "/w/q/file", &[("/w/p", 0o555)], EACCES, EACCES),
    ("/w/p/f", "/w/q/link", &[("/w/q", 0o1555)], EACCES, EACCES),
    ("/w/p/s", "/w/q/empty", &[("/w/p", 0o555), ("/w/q", 0o1555)], EACCES, EACCES),
];

const AFTER: [Meeting; 16] = [
    // Step 7: moved is into, or above it.
    ("/w/p/d", "/w/p/d/file", &[], EPERM, EINVAL),
    ("/w/p/d", "/w/p/d/empty", &[], EPERM, EINVAL),
    ("/w/p/d", "/w/p/d/e", &[], EPERM, EINVAL),
    ("/w/p/d", "/w/p/d/e/link", &[], EPERM, EINVAL),
    ("/w/p/d", "/w/p/d/e/full", &[], EPERM, EINVAL),
    ("/w", "/w/p/d/wide/n3", &[], EPERM, EINVAL),
    // Step 8.
    ("/w/p/s", "/w/q/file", &[], EPERM, ENOTDIR),
    ("/w/p/d", "/w/q/klink", &[], EPERM, ENOTDIR),
    ("/w/p/f", "/w/q/empty", &[], EPERM, EISDIR),
    ("/w/p/l", "/w/q/full", &[], EPERM, EISDIR),
    ("/w/p/f", "/w/q", &[], EPERM, EISDIR),
    // Step 9.
    ("/w/p/s", "/w/q/empty", &[("/w/p/s", 0o555)], EPERM, EACCES),
    ("/w/p/d", "/w/q/empty", &[("/w/p/d", 0o1555)], EPERM, EACCES),
    // Step 10; the last one holds moved itself.
    ("/w/p/s", "/w/q/full", &[], EPERM, ENOTEMPTY),
    ("/w/p/s", "/w/p/d", &[], EPERM, ENOTEMPTY),
    ("/w/p/d/e", "/w/p/d", &[], EPERM, ENOTEMPTY),
];

/// Who owns replaced or into passes, and everybody does where the bit is not set.
fn let_pass(scene: Scene, turn: usize) -> Scene {
    match turn % 3 {
        0 => scene.owned_by(CALLER, &[Replaced]),
        1 => scene.not_sticky(Into),
        _ => scene.owned_by(CALLER, &[Into]),
    }
}

/// Owning a directory gives its owner's bits, which are those of everybody.
fn meeting(turn: usize, (old, new, modes, kept, passed): Meeting) -> [RenameCase; 2] {
    let kept_scene = || {
        let sticky = scene(old, new).sticky(&[Into]);
        // In one directory the old side asks for moved, which is what the caller owns of it.
        let owns_moved = holder(old) == holder(new) && kept != DONE;
        let owned = if owns_moved { sticky.owned_by(CALLER, &[Moved]) } else { sticky };
        modes.iter().fold(owned, |scene, (path, mode)| scene.mode(path, *mode))
    };
    [kept_scene().told(CLASS, kept, 0), let_pass(kept_scene(), turn).told(CLASS, passed, 0)]
}

/// Step 11: replaced is the current directory, or open.
fn in_use() -> RenameCases {
    let mut cases = vec![];
    for (turn, state) in [0, 1, 2].into_iter().enumerate() {
        let (old, new) = [("/w/p/s", "/w/q/empty"), ("/w/p/f", "/w/q/file"), ("/w/p/l", "/w/q/link")][turn];
        let in_use = || {
            let mut scene = scene(old, new).sticky(&[Into]);
            let inode = inode_at(&scene.tree, new);
            if state != 0 {
                scene.tree.handles[CLOSED[turn % 2]] = Handle { state, inode };
            }
            (scene, if state == 0 { inode } else { 0 })
        };
        for (number, passes) in [(EPERM, false), (EBUSY, true)] {
            let (scene, current) = in_use();
            let scene = if passes { let_pass(scene, turn) } else { scene };
            let mut case = scene.refused(CLASS, number);
            case.request.current = current;
            cases.push(case);
        }
    }
    cases
}

/// Takes the one free slot.
fn with_no_free_slot(mut scene: Scene) -> Scene {
    let [directory, kept] = ["/w/q", "/w/q/kept"].map(|path| inode_at(&scene.tree, path));
    scene.tree.entries[FREE_SLOT] = Entry::new(directory, kept, b"z");
    scene.at("/w/q/kept").links += 1;
    scene
}

/// Where nothing is replaced the bit is not asked, and the later steps answer.
fn nothing_replaced() -> RenameCases {
    let refused = [
        ("/w/p/d", "/w/p/d/new", EINVAL),
        ("/w/p/d", "/w/p/d/e/new", EINVAL),
        ("/w/p/f", "/w/q/new/", ENOTDIR),
        ("/w/p/s", "/w/p/d/wide/new", EMLINK),
    ];
    let mut cases = refused.map(|(old, new, number)| scene(old, new).sticky(&[Into]).refused(CLASS, number)).to_vec();
    let into_sticky = |old, new| scene(old, new).sticky(&[Into]);
    cases.push(into_sticky("/w/p/s", "/w/q/new").mode("/w/p/s", 0o555).refused(CLASS, EACCES));
    cases.push(with_no_free_slot(into_sticky("/w/p/f", "/w/q/new")).refused(CLASS, ENOSPC));
    cases.push(with_no_free_slot(into_sticky("/w/p/f", "/w/q/file")).refused(CLASS, EPERM));
    let owned = into_sticky("/w/p/f", "/w/q/file").owned_by(CALLER, &[Replaced]);
    cases.push(with_no_free_slot(owned).planned(CLASS, 8));
    cases
}

/// Walks that are refused on the way to a name that the bit would keep.
fn refused_walks() -> RenameCases {
    let walks = [
        ("/w/p/none", "/w/q/file", ENOENT, [3, 0]),
        ("/w/p/f/", "/w/q/file", ENOTDIR, [3, 0]),
        ("/w/p/f", "/w/q/file/", ENOTDIR, [3, 3]),
        ("/w/p/f", "/w/q/full/..", EINVAL, [3, 4]),
        ("/w/p/f", "/w/q/none/x", ENOENT, [3, 3]),
    ];
    let mut cases = vec![];
    for (old, new, number, steps) in walks {
        let refused = Told { number, rows: 0, steps: Some(steps) };
        cases.push(scene(old, new).mode("/w/q", 0o1777).told_as(CLASS, refused));
    }
    let not_searched = Told { number: EACCES, rows: 0, steps: Some([3, 3]) };
    cases.push(scene("/w/p/f", "/w/q/file").mode("/w/q", 0o1776).told_as(CLASS, not_searched));
    cases
}

/// What is asked ahead of both walks: the buffer, the image and the request.
fn ahead_of_the_walks() -> RenameCases {
    let refused = |number| {
        let told = Told { number, rows: 0, steps: Some([0, 0]) };
        scene("/w/p/f", "/w/q/file").sticky(&[Into]).told_as(CLASS, told)
    };
    let damaged = |number, at: usize| {
        let mut case = refused(number);
        case.image[at] ^= 1;
        case
    };
    let journal = Layout::read(&refused(DONE).image).expect("the layout is right").offsets[JOURNAL];
    let mut wrong = refused(BAD_REQUEST);
    wrong.request.current = u16::MAX;
    vec![
        RenameCase { buffer: Some(Buffer { len: 647, fill: 90 }), ..refused(BUFFER_TOO_SHORT) },
        damaged(INCONSISTENT, 0),
        damaged(JOURNAL_PENDING, journal),
        damaged(INCONSISTENT, CONTENTS_LEN + 12),
        wrong,
    ]
}

pub fn cases() -> RenameCases {
    let meetings = AHEAD.into_iter().chain(AFTER).enumerate().flat_map(|(turn, line)| meeting(turn, line));
    let others = [in_use(), nothing_replaced(), refused_walks(), ahead_of_the_walks()];
    meetings.chain(others.concat()).collect()
}
