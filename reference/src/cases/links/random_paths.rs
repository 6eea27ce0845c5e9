//! Random requests whose paths lead through about forty symlinks, on random trees that have many.

use super::random_trees::{Maze, NO_NAME};
use crate::cases::random::Random;
use crate::cases::rename::{RenameCase, RenameCases, NOW};
use crate::cases::trees::builder::Tree;
use crate::cases::walk::{WalkCase, WalkCases};
use crate::model::image::Image;
use crate::model::numbers::{DONE, ELOOP};
use crate::model::permission::Credentials;
use crate::model::plan::PLAN_LEN;
use crate::model::rename::rename;
use crate::model::request::{Operand, Request, CURRENT};
use crate::model::walk::{walk, walk_both, Role, PATH_MAX};

const USERS: [u32; 5] = [0, 100, 100, 200, 300];
const GROUPS: [u32; 3] = [50, 60, 300];
const MODES: [u16; 8] = [0o755, 0o1777, 0o771, 0o767, 0o700, 0o644, 0o070, 0o775];

/// Some path of every request leads through so many symlinks, for which tries are made.
const FEWEST: usize = 30;
const TRIES: usize = 4000;

/// A request, and the tree with up to three modes changed.
type Attempt = (Tree, Request);

/// Any name in a directory, or one that is free, or `..`.
fn any_name(maze: &Maze, directory: u16, random: &mut Random) -> Vec<u8> {
    let slots = maze.tree.entries_in(directory);
    match random.below(16) {
        0 => b"..".to_vec(),
        1..11 if !slots.is_empty() => maze.tree.entries[*random.pick(&slots)].name.clone(),
        _ => NO_NAME.to_vec(),
    }
}

/// A path of any length, most of whose names lead on.
fn operand(maze: &Maze, current: u16, random: &mut Random) -> Operand {
    let start = if random.one_in(6) { random.below(maze.tree.handles.len()) as u8 } else { CURRENT };
    let handle = maze.tree.handles.get(usize::from(start));
    let absolute = random.one_in(3);
    let mut at = if absolute { 0 } else { handle.map_or(current, |handle| handle.inode) };
    let mut path = vec![b'/'; usize::from(absolute)];
    let length = random.below(120);
    while path.len() < length {
        let (name, next) = match random.one_in(60) {
            true => (any_name(maze, at, random), at),
            false => maze.component(at, random),
        };
        path.extend(name);
        path.extend(vec![b'/'; if random.one_in(12) { 2 } else { 1 }]);
        at = next;
    }
    path.extend(any_name(maze, at, random));
    path.extend(random.one_in(12).then_some(b'/'));
    Operand { start, path }
}

fn attempt(maze: &Maze, random: &mut Random) -> Attempt {
    let mut tree = maze.tree.clone();
    let directories = tree.directories();
    for _ in 0..random.below(4) {
        tree.inodes[usize::from(*random.pick(&directories))].mode = *random.pick(&MODES);
    }
    let current = *random.pick(&directories);
    let who = Credentials::new(*random.pick(&USERS), *random.pick(&GROUPS));
    let (old, new) = (operand(maze, current, random), operand(maze, current, random));
    (tree, Request { who, current, flags: 0, old, new })
}

/// Whether old's walk leads through many symlinks, or a whole one of old's is followed by such a one of new's.
fn leads_far(image: &Image, request: &Request) -> bool {
    let [old, new] = [Role::Old, Role::New].map(|role| walk(image, request, role));
    old.followed >= FEWEST || old.end.is_ok() && new.followed >= FEWEST
}

/// What tries are made for, in turn: any answer; that it is 0; and that it is another than 0 and 40.
fn is_wanted(turn: usize, number: u8) -> bool {
    match turn % 3 {
        0 => true,
        1 => number == DONE,
        _ => number != DONE && number != ELOOP,
    }
}

/// So many requests that lead far, chosen by the number that answers each.
fn attempts(maze: &Maze, count: usize, answer: fn(&[u8], &Request) -> u8, random: &mut Random) -> Vec<Attempt> {
    let mut far = |turn: usize| {
        let is_chosen = |(tree, request): &Attempt| {
            let bytes = tree.encode();
            let is_far = Image::read(&bytes).is_some_and(|image| leads_far(&image, request));
            is_far && is_wanted(turn, answer(&bytes, request))
        };
        let is_short = |(_, request): &Attempt| request.old.path.len().max(request.new.path.len()) <= PATH_MAX;
        std::iter::repeat_with(|| attempt(maze, random)).filter(is_short).take(TRIES).find(is_chosen)
    };
    (0..count).filter_map(&mut far).collect()
}

pub fn walks(maze: &Maze, count: usize, random: &mut Random) -> WalkCases {
    let case = |(tree, request)| WalkCase { class: "random walks", tree, request, told: None };
    let number = |bytes: &[u8], request: &Request| {
        let image = Image::read(bytes).expect("the layout is right");
        walk_both(&image, request).number
    };
    attempts(maze, count, number, random).into_iter().map(case).collect()
}

pub fn renames(maze: &Maze, count: usize, random: &mut Random) -> RenameCases {
    let case = |(tree, request): Attempt| RenameCase {
        class: "random renames",
        image: tree.encode(),
        buffer: None,
        request,
        now: NOW,
        told: None,
    };
    let number = |bytes: &[u8], request: &Request| rename(bytes, request, NOW, &mut [0; PLAN_LEN]).number;
    attempts(maze, count, number, random).into_iter().map(case).collect()
}
