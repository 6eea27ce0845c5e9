//! Requests that are wrong in themselves, and ones that are nearly so.

use super::{from_current, request, Told, WalkCase, WalkCases};
use crate::cases::trees::for_walks::{walk_tree, CLOSED, D, E, F, PQ, VACANT};
use crate::model::numbers::{BAD_REQUEST, ENAMETOOLONG, EPERM};
use crate::model::request::{Operand, Request};
use crate::vectors::LONGEST_PATH;

const CLASS: &str = "wrong requests";

/// Paths of every fate; none of them is walked.
fn paths() -> Vec<Vec<u8>> {
    let told: [&[u8]; 6] = [b"/d/f", b"f", b"", b"/", b"nope/x", &[b'a'; 300]];
    told.map(<[u8]>::to_vec).to_vec()
}

fn current_directories() -> Vec<Request> {
    let count = walk_tree().inodes.len() as u16;
    let numbers = [F, VACANT, 10, count - 1, count, count + 1, 256 + D, 512, 2048 + D, 32_768, 65_535];
    let mut requests = vec![];
    for (i, current) in numbers.into_iter().enumerate() {
        for (j, path) in paths().into_iter().enumerate() {
            let new = paths()[(i + j) % paths().len()].clone();
            let start = if j % 2 == 0 { 255 } else { 1 };
            let (old, new) = (Operand::new(start, &path), Operand::new(start, &new));
            requests.push(Request { current, ..request(old, new) });
        }
    }
    requests
}

fn with_zero(len: usize, at: usize) -> Vec<u8> {
    let mut path = vec![b'a'; len];
    path[at] = 0;
    path
}

fn zero_bytes() -> Vec<Request> {
    let mut broken = vec![b"/d/f\0".to_vec(), b"\0".to_vec(), b"/d\0/f".to_vec(), b"f\0".to_vec(), b"/\0".to_vec()];
    let places = [(255, 254), (256, 255), (256, 0), (300, 299), (LONGEST_PATH, 256), (LONGEST_PATH, LONGEST_PATH - 1)];
    broken.extend(places.map(|(len, at)| with_zero(len, at)));
    let mut requests = vec![];
    for (i, zero) in broken.iter().enumerate() {
        for (j, path) in paths().iter().enumerate() {
            let start = if (i + j) % 3 == 0 { CLOSED } else { 255 };
            let (one, other) = (Operand::new(start, zero), Operand::new(start, path));
            requests.push(request(one.clone(), other.clone()));
            requests.push(request(other, one));
        }
        requests.push(request(from_current(zero), from_current(zero)));
    }
    requests
}

pub fn cases() -> WalkCases {
    let wrong = current_directories().into_iter().chain(zero_bytes());
    let case = |request| {
        let told = Told { number: BAD_REQUEST, steps: [0, 0] };
        WalkCase { class: CLASS, tree: walk_tree(), request, told: Some(told) }
    };
    wrong.map(case).chain(nearly_wrong()).collect()
}

/// Any directory may be the current one, and any other byte may stand in a path; not in new's final name, which refuses
/// by another number.
fn nearly_wrong() -> WalkCases {
    let mut requests = vec![];
    for current in [D, E, PQ] {
        let request = Request { current, ..request(from_current(b"/d/f"), from_current(b"\x01")) };
        requests.push((request, Told { number: EPERM, steps: [2, 1] }));
    }
    let long = vec![b'a'; LONGEST_PATH];
    requests.push((request(from_current(b"/d/f"), from_current(&long)), Told { number: ENAMETOOLONG, steps: [2, 0] }));
    requests.push((request(from_current(&long), from_current(b"/d/f")), Told { number: ENAMETOOLONG, steps: [0, 0] }));
    let case =
        |(request, told)| WalkCase { class: "nearly wrong requests", tree: walk_tree(), request, told: Some(told) };
    requests.into_iter().map(case).collect()
}
