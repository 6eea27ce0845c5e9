//! Every name of trees whose names are nearly equal, and names that are nearly there.

use super::{from_current, request, Told, WalkCase, WalkCases};
use crate::cases::portable::is_portable;
use crate::cases::trees::builder::Tree;
use crate::model::image::NAME_MAX;
use crate::model::numbers::{DONE, EPERM};
use crate::model::walk::PATH_MAX;

const CLASS: &str = "lookups";

/// The components that lead from root to a directory.
pub fn way_to(tree: &Tree, directory: u16) -> Vec<Vec<u8>> {
    let mut names = vec![];
    let mut at = directory;
    while at != 0 {
        let entry = &tree.entries[tree.entries_to(at)[0]];
        names.push(entry.name.clone());
        at = entry.parent;
    }
    names.reverse();
    names
}

fn path_of(tree: &Tree, directory: u16, name: &[u8]) -> (Vec<u8>, u16) {
    let mut names = way_to(tree, directory);
    names.push(name.to_vec());
    let steps = names.len() as u16;
    (names.iter().flat_map(|name| [b"/", &name[..]].concat()).collect(), steps)
}

/// The name itself, then with another last byte, one byte fewer, and one byte more.
fn near(name: &[u8]) -> [Vec<u8>; 4] {
    near_by(name, name[name.len() - 1] ^ 1, b'~')
}

/// The same with names that are portable if this one is, so that all of them are looked up.
fn near_and_portable(name: &[u8]) -> [Vec<u8>; 4] {
    near_by(name, b'-', b'-')
}

fn near_by(name: &[u8], last: u8, more: u8) -> [Vec<u8>; 4] {
    let fewer = &name[..name.len() - 1];
    [name.to_vec(), [fewer, &[last]].concat(), fewer.to_vec(), [name, &[more]].concat()]
}

fn can_be_looked_up(name: &[u8]) -> bool {
    (1..=NAME_MAX).contains(&name.len()) && name != b"." && name != b".." && !name.contains(&0) && !name.contains(&b'/')
}

/// Some slots of a tree: old is an entry, new is a name near that of another one.
pub fn cases(tree: &Tree, slots: &[usize]) -> WalkCases {
    cases_near(CLASS, tree, slots, near)
}

/// Some slots of a tree that have portable names.
pub fn of_portable_names(class: &'static str, tree: &Tree, slots: &[usize]) -> WalkCases {
    cases_near(class, tree, slots, near_and_portable)
}

fn cases_near(class: &'static str, tree: &Tree, slots: &[usize], near: fn(&[u8]) -> [Vec<u8>; 4]) -> WalkCases {
    let mut cases = vec![];
    for (i, &slot) in slots.iter().enumerate() {
        let entry = &tree.entries[slot];
        let (old, old_steps) = path_of(tree, entry.parent, &entry.name);
        let other = &tree.entries[slots[(i + 1) % slots.len()]];
        for name in near(&other.name).into_iter().filter(|name| can_be_looked_up(name)) {
            let (new, new_steps) = path_of(tree, other.parent, &name);
            if old.len().max(new.len()) > PATH_MAX {
                continue;
            }
            let mut request = request(from_current(&old), from_current(&new));
            request.who.user = 0;
            let number = if is_portable(&name) { DONE } else { EPERM };
            let told = Some(Told { number, steps: [old_steps, new_steps] });
            cases.push(WalkCase { class, tree: tree.clone(), request, told });
        }
    }
    cases
}

#[cfg(test)]
mod tests {
    use super::*;
    use crate::cases::trees::samples::near_names;
    use crate::model::image::Image;
    use crate::model::walk::{walk, Role};

    #[test]
    fn every_entry_is_found_in_its_slot() {
        let tree = near_names();
        let slots: Vec<usize> = (0..tree.entries.len()).collect();
        let bytes = tree.encode();
        let image = Image::read(&bytes).expect("the layout is right");
        for case in cases(&tree, &slots) {
            let old = walk(&image, &case.request, Role::Old).end.expect("old's walk is whole");
            let slot = old.existing.expect("old exists").slot;
            let entry = &tree.entries[usize::from(slot)];
            assert_eq!(path_of(&tree, entry.parent, &entry.name).0, case.request.old.path);
        }
    }
}
