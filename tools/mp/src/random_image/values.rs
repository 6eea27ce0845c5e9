//! Random names, texts and numbers, most of them such as come up often and some from the ends of their ranges.

use crate::image::{Entry, Image};
use crate::random::Random;

const LONGEST_NAME: usize = 24;
const LONGEST_TEXT: usize = 63;

/// A file system; those from 128 on are read-only.
pub fn system(random: &mut Random) -> u8 {
    *random.pick(&[0, 0, 0, 0, 1, 1, 127, 128, 255])
}

pub fn mode(random: &mut Random) -> u16 {
    match random.below(4) {
        0 => (random.draw() & 0o7777) as u16,
        _ => *random.pick(&[0o755, 0o755, 0o755, 0o777, 0o700, 0o644, 0o1777, 0o1755, 0o555, 0o070, 0, 0o7777]),
    }
}

/// A user or a group.
pub fn user(random: &mut Random) -> u32 {
    *random.pick(&[0, 0, 100, 100, 100, 200, 65_536, u32::MAX])
}

pub fn time(random: &mut Random) -> u64 {
    match random.below(16) {
        0 => random.draw(),
        1 => *random.pick(&[0, u64::MAX]),
        _ => 100 + random.below(500) as u64,
    }
}

/// A name. The first attempts are mostly short, so that they meet again in other directories; later ones hardly ever do.
pub fn name(random: &mut Random, attempt: usize) -> Vec<u8> {
    match random.below(12) {
        _ if attempt >= 4 => format!("{:x}", random.draw() >> 20).into_bytes(),
        0 => any_name(random),
        1 => vec![*random.pick(b"abcxyz"); LONGEST_NAME],
        2 => random.pick(&["...", ".a", "-", "_", "A", "file.txt", "a.b"]).as_bytes().to_vec(),
        _ => vec![*random.pick(b"abcdefgh")],
    }
}

/// A name of any bytes that a name can have.
fn any_name(random: &mut Random) -> Vec<u8> {
    let length = 1 + random.below(LONGEST_NAME);
    let mut name = bytes(random, length);
    name.iter_mut().filter(|byte| **byte == b'/').for_each(|byte| *byte = b' ');
    match &name[..] {
        b"." | b".." => vec![b'"'],
        _ => name,
    }
}

/// So many bytes other than 0.
fn bytes(random: &mut Random, length: usize) -> Vec<u8> {
    (0..length).map(|_| 1 + random.below(255) as u8).collect()
}

/// The text of a symlink that is to get a name in an image: a path that leads somewhere, or nowhere, or back to itself.
pub fn text(random: &mut Random, image: &Image, name: &[u8]) -> Vec<u8> {
    let other = image.entries.get(random.below(1 + image.entries.len()));
    let (relative, absolute) = match other {
        Some(entry) => (entry.name.clone(), absolute(image, entry)),
        None => (b"a".to_vec(), b"/".to_vec()),
    };
    let length = 1 + random.below(LONGEST_TEXT);
    let mut text = match random.below(10) {
        0 => random.pick(&[".", "..", "/", "../..", "missing", "/missing/a", "a/../b", "//a"]).as_bytes().to_vec(),
        1 => bytes(random, length),
        2 => name.to_vec(),
        3 => [b"../", &relative[..]].concat(),
        4 => [&absolute[..], b"/"].concat(),
        5 => [&relative[..], b"/", name].concat(),
        6 | 7 => relative,
        _ => absolute,
    };
    text.truncate(LONGEST_TEXT);
    text
}

/// The path of an entry from the root.
fn absolute(image: &Image, entry: &Entry) -> Vec<u8> {
    let mut path = [b"/", &entry.name[..]].concat();
    let mut parent = entry.parent;
    // A path longer than a text is cut off in any case.
    while path.len() <= LONGEST_TEXT {
        let Some(above) = image.entries.iter().find(|above| above.target == parent) else {
            break;
        };
        path = [b"/", &above.name[..], &path].concat();
        parent = above.parent;
    }
    path
}
