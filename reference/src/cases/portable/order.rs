//! Names that are not portable beside all that refuses ahead of them: the call, old's walk, and the rest of new's.

use super::{asked, Asked, Rows, Walk, REFUSED};
use crate::cases::rename::{RenameCase, RenameCases};
use crate::cases::trees::for_names::{CLOSED, N, P};
use crate::model::layout::{Layout, CONTENTS_LEN, JOURNAL};
use crate::model::numbers::{
    BAD_REQUEST, BUFFER_TOO_SHORT, EACCES, EBADF, EBUSY, EINVAL, ELOOP, ENAMETOOLONG, ENOENT, ENOTDIR, INCONSISTENT,
    JOURNAL_PENDING,
};
use crate::model::walk::FOLLOWED_MAX;
use crate::vectors::Buffer;

/// The component at which a symlink to itself has been followed too often, however many may be.
const LOOPS: u16 = FOLLOWED_MAX as u16 + 1;

const OLD: &[u8] = b"/p/f";

/// News that are refused ahead of their final name, with the counts of their walks; and the number.
fn refused_news() -> Vec<(Vec<u8>, u16, u8)> {
    let long = [b'k'; 25];
    vec![
        (b"/none/u~".to_vec(), 1, ENOENT),
        (b"/n/u~/x".to_vec(), 2, ENOENT),
        (b"/n/u~/u~".to_vec(), 2, ENOENT),
        (b"/n/mno/u~".to_vec(), 3, ENOTDIR),
        (b"/n/a b/u~".to_vec(), 3, ENOTDIR),
        (b"/n/a b/u~/x".to_vec(), 3, ENOTDIR),
        (b"/n/lnk/u~".to_vec(), 4, ENOTDIR),
        ([b"/", &long[..], b"/u~"].concat(), 1, ENAMETOOLONG),
        ([b"/n/", &long[..], b"~"].concat(), 2, ENAMETOOLONG),
        ([b"/n/mno/", &long[..], b"~"].concat(), 3, ENOTDIR),
        (b"/x y/.".to_vec(), 2, EINVAL),
        (b"/n/c+d/..".to_vec(), 3, EINVAL),
        (b"/loop/u~".to_vec(), LOOPS, ELOOP),
        (b"".to_vec(), 0, ENOENT),
        (b"//".to_vec(), 0, EBUSY),
        (b"~".repeat(256), 0, ENAMETOOLONG),
    ]
}

fn ahead_in_new() -> Vec<Asked> {
    let class = "new's walk";
    let line = |(new, steps, number): (Vec<u8>, u16, u8)| asked(class, OLD, &new, Walk(number), [2, steps]);
    let mut all: Vec<Asked> = refused_news().into_iter().map(line).collect();
    all.extend([CLOSED, 3, 254].map(|start| asked(class, OLD, b"u~", Walk(EBADF), [2, 0]).new_from(start)));
    // A text and what follows it are 255 bytes, and then one more.
    for (slashes, fate, steps) in [(247, REFUSED, 4), (248, Walk(ENAMETOOLONG), 1)] {
        let new = [b"to\xe4", &vec![b'/'; slashes][..], b"z/u~"].concat();
        all.push(asked(class, OLD, &new, fate, [2, steps]));
    }
    all
}

/// Nobody may search the directory of the name, but for the superuser.
fn search_denied() -> Vec<Asked> {
    let news: [(&[u8], [u16; 2]); 5] =
        [(b"/n/u~", [2, 2]), (b"/n/a b", [2, 2]), (b"/n/f~/", [2, 2]), (b"/rel/c+d", [3, 3]), (b"/n/../p/u~", [2, 4])];
    let mut all = vec![];
    for (new, [denied_at, steps]) in news {
        let ask = |fate, steps| asked("search denied", OLD, new, fate, [2, steps]).mode(N, 0o666);
        all.extend([100, 300].map(|user| ask(Walk(EACCES), denied_at).by(user)));
        all.push(ask(REFUSED, steps).by(0));
    }
    all
}

/// Olds that are refused, whatever new is.
fn ahead_in_old() -> Vec<Asked> {
    let long = [b'k'; 25];
    let olds: [(&[u8], u16, u8); 12] = [
        (b"/p/none", 2, ENOENT),
        (b"/p/n~ne", 2, ENOENT),
        (b"/none/f", 1, ENOENT),
        (b"/p/f/", 2, ENOTDIR),
        (b"/p/old name/", 2, ENOTDIR),
        (b"/p/f/x", 3, ENOTDIR),
        (b"/p/.", 2, EINVAL),
        (&long, 1, ENAMETOOLONG),
        (b"/loop/f", LOOPS, ELOOP),
        (b"", 0, ENOENT),
        (b"/", 0, EBUSY),
        (&[b'/'; 256], 0, ENAMETOOLONG),
    ];
    let line = |(old, steps, number)| {
        [b"/n/u~", &b"/n/a b"[..]].map(|new| asked("old's walk", old, new, Walk(number), [steps, 0]))
    };
    let mut all: Vec<Asked> = olds.into_iter().flat_map(line).collect();
    all.push(asked("old's walk", OLD, b"/n/u~", Walk(EACCES), [2, 0]).mode(P, 0o666));
    let mut closed = asked("old's walk", b"f", b"/n/u~", Walk(EBADF), [0, 0]);
    closed.request.old.start = CLOSED;
    all.push(closed);
    all
}

/// As walks and as renames.
pub fn cases() -> Vec<Asked> {
    [ahead_in_new(), search_denied(), ahead_in_old()].concat()
}

/// What is asked ahead of both walks, of the call as it comes. As renames.
pub fn ahead_of_the_walks() -> RenameCases {
    let mut cases = vec![];
    for new in [&b"/n/u~"[..], b"/n/a b", b"/n/f~/"] {
        let refused = |number| asked("ahead of the walks", OLD, new, Walk(number), [0, 0]).as_rename();
        let damaged = |number, at: usize| {
            let mut case = refused(number);
            case.image[at] ^= 1;
            case
        };
        let requests = [
            |case: &mut RenameCase| case.request.current = u16::MAX,
            |case: &mut RenameCase| case.request.old.path.push(0),
            |case: &mut RenameCase| case.request.new.path.push(0),
            |case: &mut RenameCase| case.request.new.path.insert(0, 0),
            |case: &mut RenameCase| case.request.who.further = vec![50; 17],
        ];
        cases.extend(
            [0, 647].map(|len| RenameCase { buffer: Some(Buffer { len, fill: 90 }), ..refused(BUFFER_TOO_SHORT) }),
        );
        let journal = Layout::read(&refused(0).image).expect("the layout is right").offsets[JOURNAL];
        cases.extend([damaged(INCONSISTENT, 0), damaged(JOURNAL_PENDING, journal)]);
        cases.push(damaged(INCONSISTENT, CONTENTS_LEN + 12));
        cases.extend(requests.map(|change| {
            let mut case = refused(BAD_REQUEST);
            change(&mut case);
            case
        }));
    }
    cases
}

/// A caller's groups are of no use, as many as there may be. As renames.
pub fn with_groups() -> RenameCases {
    let mut cases = vec![];
    for groups in [1, 16] {
        for (new, fate) in [(&b"/n/u~"[..], REFUSED), (b"/n/a b", REFUSED), (b"/n/uv", Rows(7))] {
            let mut case = asked("any caller", OLD, new, fate, [2, 2]).by(300).as_rename();
            case.request.who.further = vec![50; groups];
            cases.push(case);
        }
    }
    cases
}
