//! Where the new name goes: the lowest slot that is free.

use super::random_renames::{stopped_by, straight};
use super::{case, request, RenameCase, RenameCases, Told, NOW};
use crate::cases::damage::subject::spread;
use crate::cases::random::Random;
use crate::cases::trees::bench::bench_tree;
use crate::cases::trees::builder::{Entry, Tree};
use crate::model::image::DIRECTORY;
use crate::model::permission::{Credentials, SUPERUSER};
use crate::model::request::Request;

const CLASS: &str = "free slots";

const RENAMES: [(&str, &str, u8); 5] =
    [("/a/f", "/a/k", 6), ("/a/d", "/b/e/", 7), ("/s", "/b/t", 7), ("/b/g", "/g", 7), ("/a/f", "/b/g", 8)];

/// The bench tree with the free slot at a place, and perhaps a second one: then b/h is gone.
fn with_free(first: usize, second: Option<usize>) -> Tree {
    let mut tree = bench_tree();
    tree.entries.swap(7, first);
    if let Some(second) = second {
        let gone = tree.entries.iter().position(|entry| entry.name == b"h").expect("the name is there");
        tree.entries[gone] = Entry::default();
        tree.entries.swap(gone, second);
        tree.recount();
    }
    tree
}

pub fn cases() -> RenameCases {
    let one = (0..8).map(|first| with_free(first, None));
    let two = (0..8).flat_map(|first| [(first + 1) % 8, (first + 3) % 8].map(|second| with_free(first, Some(second))));
    let mut cases = vec![];
    for (i, tree) in one.chain(two).enumerate() {
        for (j, (old, new, rows)) in RENAMES.into_iter().enumerate() {
            let mut request = request(old, new);
            request.who = Credentials::new(if (i + j) % 2 == 0 { 0 } else { 100 }, 100);
            cases.push(case(CLASS, &tree, request, Told { number: 0, rows, steps: None }));
        }
    }
    cases
}

/// The slots whose name can go: another one is left, and it is short, so that its removal can be stored as edits.
fn can_go(tree: &Tree) -> Vec<usize> {
    let can_go = |&slot: &usize| {
        let entry = &tree.entries[slot];
        let inode = &tree.inodes[usize::from(entry.target)];
        entry.name.len() <= 4 && inode.kind != DIRECTORY && inode.links > 1
    };
    (0..tree.entries.len()).filter(can_go).collect()
}

/// Exchanges entries so that the names in the first and in the last slot can go.
pub fn arrange(tree: &mut Tree) {
    let last = tree.entries.len() - 1;
    if let [first_that_can, .., last_that_can] = can_go(tree)[..] {
        tree.entries.swap(0, first_that_can);
        tree.entries.swap(last, last_that_can);
    }
}

/// A full tree with one name removed, whichever slot it had: there, and only there, the new name goes.
pub fn in_a_full_tree(tree: &Tree, random: &mut Random) -> RenameCases {
    let without = |slot: usize| {
        let mut tree = tree.clone();
        let gone = std::mem::take(&mut tree.entries[slot]);
        tree.inodes[usize::from(gone.target)].links -= 1;
        tree
    };
    let trees: Vec<Tree> = spread(can_go(tree)).into_iter().map(without).collect();
    trees.iter().flat_map(|tree| [0; 3].map(|_| to_a_free_name(tree, random))).collect()
}

/// Renames are tried until one has rows.
fn to_a_free_name(tree: &Tree, random: &mut Random) -> RenameCase {
    let any = || {
        let (old, new) = (straight(tree, false, random), straight(tree, true, random));
        let request = Request { who: Credentials::new(SUPERUSER, 0), current: 0, flags: 0, old, new };
        RenameCase { class: CLASS, image: tree.encode(), buffer: None, request, now: NOW, told: None }
    };
    std::iter::repeat_with(any).find(|case| stopped_by(case).is_none()).expect("some rename is not refused")
}

#[cfg(test)]
mod tests {
    use super::*;
    use crate::cases::stand_in::with_stand_in;
    use crate::cases::trees::generated::{generate, FULL};
    use crate::model::layout::{Layout, ENTRIES};
    use crate::model::plan::{Row, PLAN_LEN};
    use crate::model::rename::rename;

    #[test]
    fn the_lowest_free_slot_is_taken() {
        let full = in_a_full_tree(&generate(FULL, 5), &mut Random::new(9));
        let to_free_names = cases().into_iter().filter(|case| case.request.new.path != b"/b/g");
        for case in to_free_names.chain(full) {
            let layout = Layout::read(&case.image).expect("the layout is right");
            let entries = case.image[layout.section(ENTRIES)].chunks_exact(32);
            let lowest = entries.into_iter().position(|entry| entry[4] == 0).expect("a slot is free");
            let mut plan = [0; PLAN_LEN];
            let (image, request) = with_stand_in(&case.image, &case.request);
            rename(&image, &request, case.now, &mut plan);
            assert_eq!(usize::from(Row::read(&plan, 1).offset), layout.position(ENTRIES, lowest));
        }
    }
}
