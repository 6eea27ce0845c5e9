//! The renames and exchanges that are measured: from name to name, so that no free slot is needed, and each with rows.

use crate::cases::random::Random;
use crate::cases::trees::builder::Tree;
use crate::cases::walk::lookups::way_to;
use crate::explore::PlannedRename;
use crate::model::permission::{Credentials, SUPERUSER};
use crate::model::plan::PLAN_LEN;
use crate::model::request::{Operand, Request, CURRENT, EXCHANGE};
use crate::model::walk::PATH_MAX;
use crate::plain;
use std::collections::BTreeSet;

pub const NOW: u64 = 500;

/// How many renames, or exchanges, a batch has.
pub const RENAMES: usize = 1_000;

/// After so many, an image that small has no other.
const TRIES: usize = 100_000;

/// So many different renames, or all where there are fewer, planned on one image with rows.
pub fn renames(tree: &Tree) -> Vec<Request> {
    requests(tree, 0)
}

/// The same of exchanges.
pub fn exchanges(tree: &Tree) -> Vec<Request> {
    requests(tree, EXCHANGE)
}

fn requests(tree: &Tree, flags: u32) -> Vec<Request> {
    let (image, paths) = (tree.encode(), paths(tree));
    let random = &mut Random::new(1);
    let mut seen = BTreeSet::new();
    let mut requests = vec![];
    for _ in 0..TRIES {
        let pair = (random.below(paths.len()), random.below(paths.len()));
        let request = request(&paths[pair.0], &paths[pair.1], flags);
        if seen.insert(pair) && plain::rename(&image, &request, NOW, &mut [0; PLAN_LEN]).rows != 0 {
            requests.push(request);
        }
        if requests.len() == RENAMES {
            break;
        }
    }
    requests
}

/// One of them, on whose way crashes are looked at.
pub fn planned(tree: &Tree, request: &Request) -> Option<PlannedRename> {
    PlannedRename::new(&tree.encode(), request, NOW)
}

/// The path of every entry that a path is long enough for.
fn paths(tree: &Tree) -> Vec<Vec<u8>> {
    let joined = |names: &[Vec<u8>]| names.iter().flat_map(|name| [b"/", &name[..]].concat()).collect::<Vec<u8>>();
    let in_directory = |directory: u16| {
        let way = joined(&way_to(tree, directory));
        let names = tree.entries_in(directory).into_iter().map(|slot| &tree.entries[slot].name);
        names.map(|name| [&way, &b"/"[..], name].concat()).collect::<Vec<_>>()
    };
    let all = tree.directories().into_iter().flat_map(in_directory);
    all.filter(|path| path.len() <= PATH_MAX).collect()
}

fn request(old: &[u8], new: &[u8], flags: u32) -> Request {
    let (old, new) = (Operand::new(CURRENT, old), Operand::new(CURRENT, new));
    Request { who: Credentials::new(SUPERUSER, 0), current: 0, flags, old, new }
}
