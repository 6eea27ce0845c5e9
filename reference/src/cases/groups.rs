//! Rename cases with further groups: who is in a group, what that allows and denies, and how long a list may be.

pub mod group_numbers;
pub mod handles;
pub mod one_class;
pub mod part;
pub mod places;
pub mod random_lists;
pub mod sticky;
pub mod too_many;
pub mod ways;

use crate::cases::rename::{case, request, RenameCase, Told};
use crate::cases::trees::builder::Tree;
use crate::cases::trees::for_renames::{inode_at, rename_tree};
use crate::model::numbers::{DONE, EACCES};
use crate::model::permission::Credentials;

/// Somebody who owns nothing in the rename tree, by user and effective group.
const STRANGER: u32 = 300;

fn stranger(further: &[u32]) -> Credentials {
    with(STRANGER, STRANGER, further)
}

fn with(user: u32, group: u32, further: &[u32]) -> Credentials {
    Credentials { further: further.to_vec(), ..Credentials::new(user, group) }
}

/// How many further groups a caller may have: told here, not taken from the model.
const MOST: usize = 16;

/// As many groups that have nothing in any tree.
fn others(count: usize) -> Vec<u32> {
    (1001..).take(count).collect()
}

/// Others, but for one group at a place counted from 1.
fn others_but(count: usize, place: usize, group: u32) -> Vec<u32> {
    let mut list = others(count);
    list[place - 1] = group;
    list
}

const fn planned(rows: u8, steps: [u16; 2]) -> Told {
    Told { number: DONE, rows, steps: Some(steps) }
}

const fn denied(steps: [u16; 2]) -> Told {
    Told { number: EACCES, rows: 0, steps: Some(steps) }
}

/// The rename tree with the mode and the group of some inodes changed.
fn tree_with(changes: &[(&str, u16, u32)]) -> Tree {
    let mut tree = rename_tree();
    for (path, mode, group) in changes {
        let number = usize::from(inode_at(&tree, path));
        (tree.inodes[number].mode, tree.inodes[number].group) = (*mode, *group);
    }
    tree
}

/// A directory of that group which only the group may use, then one which all but the group may, asked by somebody who
/// does not own it.
fn asked(class: &'static str, group: u32, who: &Credentials, is_in: bool) -> [RenameCase; 2] {
    [(0o070, is_in), (0o707, !is_in)].map(|(mode, allowed)| {
        let mut request = request("/w/p/f", "/w/q/new");
        request.who = who.clone();
        let told = if allowed { planned(7, [3, 3]) } else { denied([3, 0]) };
        case(class, &tree_with(&[("/w/p", mode, group)]), request, told)
    })
}
