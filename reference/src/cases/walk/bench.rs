//! The bench trees with the paths that the rules' own examples have.

use super::{from_current, request, Told, WalkCase, WalkCases};
use crate::cases::trees::builder::Tree;
use crate::model::permission::Credentials;
use crate::model::request::{Operand, Request};

const CLASS: &str = "bench tree";

type Line = (&'static str, &'static str, u8, [u16; 2]);

/// Old and new, then the walks' number and counts; what a rename refuses later is no matter here.
const LINES: [Line; 15] = [
    ("/a/f", "/a/k", 0, [2, 2]),
    ("/a/f", "/b/h", 0, [2, 2]),
    ("/a/f", "/b/h/", 20, [2, 2]),
    ("/a/f", "/b/g", 0, [2, 2]),
    ("/a/d", "/b/e/", 0, [2, 2]),
    ("/a", "/a/d/x", 0, [1, 3]),
    ("/a/f", "/a/d", 0, [2, 2]),
    ("/b", "/a", 0, [1, 1]),
    ("/s/f", "/k", 0, [3, 1]),
    ("/s", "/t", 0, [1, 1]),
    ("/s/", "/t", 20, [1, 0]),
    ("/a/f", "/k/", 0, [2, 1]),
    ("/", "/k", 16, [0, 0]),
    ("", "/k", 2, [0, 0]),
    ("/a/f/x", "/k", 20, [3, 0]),
];

/// Lines of the table that name a handle.
const AT_HANDLES: [(u8, u8, [u16; 2]); 2] = [(0, 0, [1, 1]), (9, 9, [0, 0])];

fn case(tree: &Tree, id: u32, old: Operand, new: &str, number: u8, steps: [u16; 2]) -> WalkCase {
    let who = Credentials::new(id, id);
    let request = Request { who, ..request(old, from_current(new.as_bytes())) };
    WalkCase { class: CLASS, tree: tree.clone(), request, told: Some(Told { number, steps }) }
}

/// Every line for the owner, for somebody else and for the superuser.
pub fn cases(tree: &Tree) -> WalkCases {
    let mut cases = vec![];
    for id in [100, 200, 0] {
        for (old, new, number, steps) in LINES {
            cases.push(case(tree, id, from_current(old.as_bytes()), new, number, steps));
        }
        for (handle, number, steps) in AT_HANDLES {
            cases.push(case(tree, id, Operand::new(handle, b"g"), "/g", number, steps));
        }
    }
    cases
}
