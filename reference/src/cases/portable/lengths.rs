//! Names of every length and names of dots, with and without a byte that is not portable.

use super::{asked, Asked, Fate, Rows, Step, Walk, REFUSED};
use crate::cases::trees::for_names::LONGEST;
use crate::model::numbers::{EINVAL, ENAMETOOLONG, ENOTEMPTY};
use std::collections::BTreeSet;

const LONG: Fate = Walk(ENAMETOOLONG);

fn in_n(class: &'static str, name: &[u8], fate: Fate) -> Asked {
    asked(class, b"/p/f", &[b"/n/", name].concat(), fate, [2, 2])
}

/// A name of so many bytes with one at a place counted from 1.
fn name_with(len: usize, place: usize, byte: u8) -> Vec<u8> {
    let mut name = vec![b'k'; len];
    name[place - 1] = byte;
    name
}

/// Names of one byte: the first and the last of each range, and those beside them.
fn of_one_byte() -> Vec<Asked> {
    let portable = b"-09AZ_az".iter().map(|&byte| (byte, Rows(7)));
    let others = b",:@[^`{ ~\x01\x7f\x80\xff".iter().map(|&byte| (byte, REFUSED));
    let slash = asked("lengths", b"/p/s", b"/n//", Step(ENOTEMPTY), [2, 1]);
    let names = portable.chain(others).map(|(byte, fate)| in_n("lengths", &[byte], fate));
    names.chain([slash, in_n("lengths", b".", Walk(EINVAL))]).collect()
}

/// Up to 24 bytes the byte answers, and from 25 on the length.
fn of_missing_names() -> Vec<Asked> {
    let class = "lengths";
    let mut all = vec![];
    for len in [2, 8, 23, 24, 25, 26, 252] {
        let portable = if len > 24 { LONG } else { Rows(7) };
        all.push(in_n(class, &vec![b'k'; len], portable));
        for place in BTreeSet::from([1, 2, 12, 23, 24, 25, len]).into_iter().filter(|&place| place <= len) {
            let byte = b"~ \x80"[(len + place) % 3];
            all.push(in_n(class, &name_with(len, place, byte), if len > 24 { LONG } else { REFUSED }));
        }
    }
    all
}

fn of_existing_names() -> Vec<Asked> {
    let longest = b"abcdefghijklmnopqrstuvwx";
    let mut all = vec![in_n("lengths", longest, Rows(8))];
    for (at, byte) in [(0, b' '), (0, 0xff), (11, b'@'), (23, b'['), (23, 1)] {
        let mut name = *longest;
        name[at] = byte;
        all.push(in_n("lengths", &name, REFUSED).with_byte(LONGEST, at, byte));
    }
    all.push(in_n("lengths", &[&longest[..], b"~"].concat(), LONG));
    all
}

/// A path of 255 bytes ends in a name like any other, and a longer one is not walked.
fn of_paths() -> Vec<Asked> {
    let path = |slashes: usize, name: &[u8]| [b"/n", &vec![b'/'; slashes][..], name].concat();
    vec![
        asked("lengths", b"/p/f", &path(252, b"~"), REFUSED, [2, 2]),
        asked("lengths", b"/p/f", &path(252, b"u"), Rows(7), [2, 2]),
        asked("lengths", b"/p/f", &path(253, b"~"), LONG, [2, 0]),
        asked("lengths", b"/p/f", &path(1, &[b'~'; 252]), LONG, [2, 2]),
        asked("lengths", b"/p/f", &path(1, &[b'~'; 253]), LONG, [2, 0]),
    ]
}

fn of_dots() -> Vec<Asked> {
    let class = "dots";
    let tables: [(Fate, &[&[u8]]); 4] = [
        (Walk(EINVAL), &[b".", b"..", b"./", b"..//"]),
        (Rows(7), &[b"...", b"....", &[b'.'; 24], b".a", b"..a", b"a.", b"a..", b"-", b"--", b"_", b"-.", b"._", b"0"]),
        (REFUSED, &[b".~", b"..~", b"~.", b"~..", b". ", b".. ", b" .", b" ..", b".\x2c", b"...~", b".\xff.", b".~/"]),
        (LONG, &[&[b'.'; 25]]),
    ];
    let mut all = vec![];
    for (fate, names) in tables {
        all.extend(names.iter().map(|name| in_n(class, name, fate)));
    }
    for (new, fate) in [(&b"/n/../~"[..], REFUSED), (b"/n/./~", REFUSED), (b"/n/./u", Rows(7)), (b"/p/../~/", REFUSED)]
    {
        all.push(asked(class, b"/p/f", new, fate, [2, 3]));
    }
    all
}

pub fn cases() -> Vec<Asked> {
    [of_one_byte(), of_missing_names(), of_existing_names(), of_paths(), of_dots()].concat()
}
