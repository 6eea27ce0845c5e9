//! Random requests on trees that can be walked through.

use super::lookups::way_to;
use super::{few_are_followed, WalkCase, WalkCases};
use crate::cases::random::Random;
use crate::cases::stand_in::with_stand_in;
use crate::cases::trees::builder::Tree;
use crate::model::image::{Image, DIRECTORY, FILE, SYMLINK, TEXT_MAX};
use crate::model::numbers::DONE;
use crate::model::permission::Credentials;
use crate::model::request::{Operand, Request, CURRENT};
use crate::model::walk::walk_both;
use crate::vectors::LONGEST_PATH;

const CLASS: &str = "random walks";

const USERS: [u32; 6] = [0, 0, 100, 100, 200, 300];
const GROUPS: [u32; 4] = [0, 50, 60, 300];
const MODES: [u16; 16] =
    [0o755, 0o755, 0o755, 0o755, 0o755, 0o755, 0o777, 0o1777, 0o711, 0o751, 0o555, 0o700, 0o677, 0o767, 0o776, 0o644];

/// Gives a tree modes that let most callers through, and texts that mostly lead somewhere.
pub fn set_modes_and_texts(tree: &mut Tree, random: &mut Random) {
    for inode in tree.inodes.iter_mut().filter(|inode| inode.kind != 0) {
        inode.mode = *random.pick(&MODES);
        inode.owner = *random.pick(&USERS);
        inode.group = *random.pick(&GROUPS);
    }
    let names: Vec<(u16, u16)> = tree.entries.iter().map(|entry| (entry.target, entry.parent)).collect();
    for (symlink, holder) in names {
        if tree.kind(symlink) != SYMLINK {
            continue;
        }
        let text =
            std::iter::repeat_with(|| any_path(tree, holder, 3, true, random)).find(|text| text.len() <= TEXT_MAX);
        let number = tree.inodes[usize::from(symlink)].field;
        tree.texts[usize::from(number)] = text.expect("some way is short enough");
    }
}

/// A path that mostly exists if it starts in the directory, or in root if it begins with a slash. The text of a
/// symlink that is passed through mostly leads to a directory.
fn any_path(tree: &Tree, from: u16, most: usize, passed: bool, random: &mut Random) -> Vec<u8> {
    let absolute = random.one_in(3);
    let mut at = if absolute { 0 } else { from };
    let mut path = if absolute { slashes(random) } else { vec![] };
    if absolute && random.one_in(2) {
        at = *random.pick(&tree.directories());
        for name in way_to(tree, at) {
            path.extend(name);
            path.extend(slashes(random));
        }
    }
    for left in (0..1 + random.below(most)).rev() {
        let (name, next) = component(tree, at, left > 0 || passed, random);
        path.extend(name);
        at = next;
        if left > 0 || random.one_in(10) {
            path.extend(slashes(random));
        }
    }
    path
}

fn slashes(random: &mut Random) -> Vec<u8> {
    vec![b'/'; if random.one_in(8) { 1 + random.below(4) } else { 1 }]
}

/// A component, and the directory that it probably leads to. One that others follow is mostly no file.
fn component(tree: &Tree, at: u16, followed: bool, random: &mut Random) -> (Vec<u8>, u16) {
    let up = (b"..".to_vec(), tree.inodes[usize::from(at)].field);
    let directory = if random.one_in(24) { *random.pick(&tree.directories()) } else { at };
    let mut slots = tree.entries_in(directory);
    if followed && !random.one_in(12) {
        slots.retain(|&slot| tree.kind(tree.entries[slot].target) != FILE);
    }
    match random.below(20) {
        0 => (b".".to_vec(), at),
        1 => up,
        2 => (vec![b'~'; *random.pick(&[1, 1, 2, 24, 25])], at),
        3 | 4 if followed => (b".".to_vec(), at),
        5 | 6 if followed => up,
        _ if slots.is_empty() && followed => up,
        _ if slots.is_empty() => (b"~".to_vec(), at),
        _ => {
            let entry = &tree.entries[*random.pick(&slots)];
            (entry.name.clone(), lead(tree, at, entry.target))
        }
    }
}

/// Where an inode leads; symlinks inside a text are not followed.
fn lead(tree: &Tree, at: u16, inode: u16) -> u16 {
    if tree.kind(inode) != SYMLINK {
        return if tree.kind(inode) == DIRECTORY { inode } else { at };
    }
    let text = &tree.texts[usize::from(tree.inodes[usize::from(inode)].field)];
    let start = if text.first() == Some(&b'/') { 0 } else { at };
    text.split(|&byte| byte == b'/').fold(start, |at, name| {
        let slot = tree.entries_in(at).into_iter().find(|&slot| tree.entries[slot].name == name);
        match (name, slot) {
            (b"..", _) => tree.inodes[usize::from(at)].field,
            (_, Some(slot)) if tree.kind(tree.entries[slot].target) == DIRECTORY => tree.entries[slot].target,
            _ => at,
        }
    })
}

/// A path from the current directory or from any handle, which mostly leads somewhere.
pub fn operand(tree: &Tree, current: u16, most: usize, random: &mut Random) -> Operand {
    let start = match random.below(4) {
        0 => random.below(tree.handles.len() + 1) as u8,
        _ => CURRENT,
    };
    let named = tree.handles.get(usize::from(start)).map(|handle| handle.inode);
    let from = named.filter(|&inode| tree.kind(inode) == DIRECTORY).unwrap_or(current);
    let path = any_path(tree, from, most, false, random);
    Operand { start, path }
}

/// A request on the tree with up to two modes changed.
fn case(tree: &Tree, random: &mut Random) -> WalkCase {
    let mut tree = tree.clone();
    let directories = tree.directories();
    let current = *random.pick(&directories);
    let (old, new) = (operand(&tree, current, 6, random), operand(&tree, current, 9, random));
    for _ in 0..random.below(3) {
        tree.inodes[usize::from(*random.pick(&directories))].mode = *random.pick(&MODES);
    }
    let who = Credentials::new(*random.pick(&USERS), *random.pick(&GROUPS));
    WalkCase { class: CLASS, tree, request: Request { who, current, flags: 0, old, new }, told: None }
}

fn is_short(case: &WalkCase) -> bool {
    case.request.old.path.len().max(case.request.new.path.len()) <= LONGEST_PATH
}

/// Both walks are whole, or would be if new's final name were portable.
fn is_whole(case: &WalkCase) -> bool {
    let (bytes, request) = with_stand_in(&case.tree.encode(), &case.request);
    let whole = Image::read(&bytes).is_some_and(|image| walk_both(&image, &request).number == DONE);
    whole && few_are_followed(&bytes, &request)
}

/// Half of the requests are taken as they come; for the other half some tries are made to find two whole walks.
pub fn cases(tree: &Tree, count: usize, random: &mut Random) -> WalkCases {
    let mut cases = vec![];
    while cases.len() < count {
        let tries = if cases.len() % 2 == 0 { 1 } else { 20 };
        let mut tried: WalkCases = (0..tries).map(|_| case(tree, random)).filter(is_short).collect();
        let best = tried.iter().position(|case| tries > 1 && is_whole(case)).unwrap_or(0);
        cases.extend(tried.drain(..).nth(best));
    }
    cases
}
