//! Random renames and walks whose new names are portable or not, on small trees.

use super::{is_portable, PORTABLE};
use crate::cases::random::Random;
use crate::cases::rename::random_renames::{self, stopped_by, two_paths};
use crate::cases::rename::{RenameCase, NOW};
use crate::cases::stand_in::{final_name, with_stand_in};
use crate::cases::trees::builder::Tree;
use crate::cases::walk::random_walks::set_modes_and_texts;
use crate::cases::walk::WalkCase;
use crate::model::image::{FREE, NAME_MAX};
use crate::model::permission::Credentials;
use crate::model::request::Request;
use crate::model::walk::PATH_MAX;
use crate::vectors::MOST_EDITS;

const USERS: [u32; 4] = [0, 100, 200, 300];
const GROUPS: [u32; 4] = [0, 50, 60, 300];
const MODES: [u16; 6] = [0o777, 0o777, 0o777, 0o777, 0o755, 0o775];

/// Every other request is taken as it comes. For the others tries are made until nothing but the name can stop one.
const TRIES: usize = 400;

/// A tree on one file system that most callers may change, in which about half of the names are portable.
pub fn arranged(mut tree: Tree, random: &mut Random) -> Tree {
    set_modes_and_texts(&mut tree, random);
    for inode in tree.inodes.iter_mut().filter(|inode| inode.kind != FREE) {
        inode.file_system = 0;
        inode.mode = *random.pick(&MODES);
    }
    for slot in 0..tree.entries.len() {
        let (parent, name) = (tree.entries[slot].parent, &tree.entries[slot].name);
        let portable: Vec<u8> = name.iter().map(|&byte| PORTABLE[usize::from(byte) % PORTABLE.len()]).collect();
        let is_taken = tree.entries_in(parent).into_iter().any(|other| tree.entries[other].name == portable);
        if !is_taken && final_name(&portable).is_some() && random.one_in(2) {
            tree.entries[slot].name = portable;
        }
    }
    tree
}

/// A byte that is not portable and may stand in a name.
fn unportable_byte(random: &mut Random) -> u8 {
    let mut bytes = std::iter::repeat_with(|| random.byte());
    bytes.find(|&byte| byte != 0 && byte != b'/' && !is_portable(&[byte])).expect("most bytes are not portable")
}

/// A portable name, with one byte exchanged once in two times.
fn any_name(random: &mut Random) -> Vec<u8> {
    let mut name: Vec<u8> = (0..1 + random.below(NAME_MAX)).map(|_| *random.pick(PORTABLE)).collect();
    if random.one_in(2) {
        let at = random.below(name.len());
        name[at] = unportable_byte(random);
    }
    name
}

/// New's final name is another one, if there is one.
fn with_name(path: &[u8], name: &[u8]) -> Vec<u8> {
    let Some(before) = final_name(path) else { return path.to_vec() };
    let start = path.windows(before.len()).rposition(|part| part == before).unwrap_or(0);
    [&path[..start], name, &path[start + before.len()..]].concat()
}

fn attempt(tree: &Tree, random: &mut Random) -> RenameCase {
    let current = *random.pick(&tree.directories());
    let (old, mut new) = two_paths(tree, current, 4, random);
    if !random.one_in(3) {
        new.path = with_name(&new.path, &any_name(random));
    }
    let who = Credentials::new(*random.pick(&USERS), *random.pick(&GROUPS));
    let request = Request { who, current, flags: 0, old, new };
    RenameCase { class: "random renames", image: tree.encode(), buffer: None, request, now: NOW, told: None }
}

/// Paths are stored whole, so none is let be longer than any that can be walked.
fn is_short(case: &RenameCase) -> bool {
    case.request.old.path.len().max(case.request.new.path.len()) <= PATH_MAX
}

pub fn renames(tree: &Tree, count: usize, random: &mut Random) -> Vec<RenameCase> {
    let mut cases = vec![];
    for turn in 0..count {
        let mut attempts = std::iter::repeat_with(|| attempt(tree, random)).filter(is_short);
        let any = attempts.next();
        let wanted = match turn % 2 {
            0 => None,
            _ => attempts.take(TRIES).find(|case| stopped_by(case).is_none()),
        };
        cases.extend(wanted.or(any));
    }
    cases
}

/// The rename with a portable name in the place of new's final one: it has rows where nothing else stops it.
pub fn portable(case: RenameCase) -> RenameCase {
    let (image, request) = with_stand_in(&case.image, &case.request);
    RenameCase { image, request, ..case }
}

/// Renames as the rename's own part has them, which mostly have rows again once new's final name is a portable one. Of a
/// long name that many entries have, more bytes would change than a case can store.
pub fn portable_renames(tree: &Tree, count: usize, random: &mut Random) -> Vec<RenameCase> {
    let home = tree.encode();
    let is_near = |case: &RenameCase| home.iter().zip(&case.image).filter(|(a, b)| a != b).count() <= MOST_EDITS;
    let renames = random_renames::cases(tree, count, random).into_iter().map(portable);
    let renames = renames.map(|case| RenameCase { class: "with a portable name", ..case });
    renames.filter(is_near).collect()
}

/// Some more of the same requests, of which only the walks are asked.
pub fn walks(tree: &Tree, count: usize, random: &mut Random) -> Vec<WalkCase> {
    let walk =
        |case: RenameCase| WalkCase { class: "random walks", tree: tree.clone(), request: case.request, told: None };
    renames(tree, count, random).into_iter().map(walk).collect()
}
