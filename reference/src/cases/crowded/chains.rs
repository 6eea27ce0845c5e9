//! Ways to root through 400 directories, and ways that lead round or nowhere.

use super::{Table, NO_RULE};
use crate::cases::trees::builder::Tree;
use crate::model::image::DIRECTORY;

const CHAIN: usize = 400;

/// Rings at the chain's lower end; the last is the whole chain.
const RINGS: [usize; 7] = [1, 2, 3, 255, 256, 257, CHAIN];

/// Rings at its upper end, below which the rest of it hangs.
const RINGS_WITH_A_TAIL: [usize; 2] = [2, 256];

/// No entry of a chain has this name.
const NAME: &[u8] = b"z";

/// The directories below root, each inside the one before.
fn chain(tree: &Tree) -> Vec<u16> {
    let inside = |&directory: &u16| {
        let mut targets = tree.entries_in(directory).into_iter().map(|slot| tree.entries[slot].target);
        targets.find(|&target| tree.kind(target) == DIRECTORY)
    };
    std::iter::successors(inside(&0), inside).collect()
}

/// Moves a directory, and counts anew: where it is moved below itself, rule 30 alone is broken.
fn put_into(tree: &mut Tree, directory: u16, parent: u16) {
    let slot = tree.entries_to(directory)[0];
    tree.entries[slot].parent = parent;
    tree.entries[slot].name = NAME.to_vec();
    tree.recount();
}

pub fn all(table: &mut Table) {
    let chain = chain(&table.subject.tree);
    table.add("ways to root", NO_RULE, |_| {});
    for [moved, into] in [[200, 0], [CHAIN - 1, 255]] {
        table.add("ways to root", NO_RULE, |tree| put_into(tree, chain[moved], chain[into]));
    }
    for len in RINGS {
        table.add("rings", &[30], |tree| put_into(tree, chain[CHAIN - len], chain[CHAIN - 1]));
    }
    for len in RINGS_WITH_A_TAIL {
        table.add("rings", &[30], |tree| put_into(tree, chain[0], chain[len - 1]));
    }
    table.add_pending(&[14, 30], |tree| put_into(tree, chain[CHAIN - 256], chain[CHAIN - 1]));
    nowhere(table, &chain);
}

/// Fields that name a file, a free inode, or a number beyond the section: alone, and with the entry's parent the same.
fn nowhere(table: &mut Table, chain: &[u16]) {
    let subject = &table.subject;
    let numbers = [subject.files()[0], subject.free_inodes()[0], subject.tree.inodes.len()];
    for number in numbers.map(|number| number as u16) {
        table.add("fields that name no directory", &[29, 30], |tree| {
            tree.inodes[usize::from(chain[CHAIN - 1])].field = number;
        });
        table.add("fields that name no directory", &[22, 30], |tree| put_into(tree, chain[0], number));
    }
}
