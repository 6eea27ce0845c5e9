//! Random renames on random trees.

use super::{RenameCase, RenameCases};
use crate::cases::random::Random;
use crate::cases::stand_in::with_stand_in;
use crate::cases::trees::builder::{Handle, Tree};
use crate::cases::walk::few_are_followed;
use crate::cases::walk::lookups::way_to;
use crate::cases::walk::random_walks::operand;
use crate::model::image::{Image, FREE};
use crate::model::permission::Credentials;
use crate::model::plan::PLAN_LEN;
use crate::model::refusal::Refusal;
use crate::model::rename::call::Call;
use crate::model::rename::order::all_that_apply;
use crate::model::request::{Operand, Request, CURRENT};
use crate::model::walk::PATH_MAX;

const USERS: [u32; 6] = [0, 0, 100, 100, 200, 300];
const MODES: [u16; 6] = [0o777, 0o1777, 0o1777, 0o555, 0o755, 0o700];

/// Half of the requests are taken as they come; for the others tries are made until nothing stops one.
const TRIES: usize = 60;

/// A path straight from root to an entry, or to a name that is free.
pub fn straight(tree: &Tree, fresh: bool, random: &mut Random) -> Operand {
    let directory = *random.pick(&tree.directories());
    let slots = tree.entries_in(directory);
    let mut names = way_to(tree, directory);
    names.push(match fresh || slots.is_empty() {
        true => vec![b'~'; 1 + random.below(24)],
        false => tree.entries[*random.pick(&slots)].name.clone(),
    });
    let mut path: Vec<u8> = names.iter().flat_map(|name| [b"/", &name[..]].concat()).collect();
    if random.one_in(10) {
        path.push(b'/');
    }
    Operand { start: CURRENT, path }
}

fn time(random: &mut Random) -> u64 {
    match random.below(3) {
        0 => random.word(),
        1 => random.below(3000) as u64,
        _ => u64::MAX - random.below(2) as u64,
    }
}

/// Old and new: of so many one is a path of any kind, and the others lead straight; half of the new names are free.
pub fn two_paths(tree: &Tree, current: u16, any_of: usize, random: &mut Random) -> (Operand, Operand) {
    let old = if random.one_in(any_of) { operand(tree, current, 4, random) } else { straight(tree, false, random) };
    let fresh = random.one_in(2);
    let new = if random.one_in(any_of) { operand(tree, current, 4, random) } else { straight(tree, fresh, random) };
    (old, new)
}

/// Opens some handle, if the tree has any, on some inode.
fn open_one(tree: &mut Tree, random: &mut Random) {
    let used: Vec<u16> = (0..tree.inodes.len() as u16).filter(|&inode| tree.kind(inode) != FREE).collect();
    let place = random.below(tree.handles.len() + 1);
    if let Some(handle) = tree.handles.get_mut(place) {
        *handle = Handle { state: 1 + random.byte() % 2, inode: *random.pick(&used) };
    }
}

/// A request on the tree with up to two modes and a handle changed.
fn attempt(tree: &Tree, random: &mut Random) -> RenameCase {
    let mut tree = tree.clone();
    let directories = tree.directories();
    let current = *random.pick(&directories);
    for _ in 0..random.below(3) {
        tree.inodes[usize::from(*random.pick(&directories))].mode = *random.pick(&MODES);
    }
    if random.one_in(5) {
        open_one(&mut tree, random);
    }
    let old = if random.one_in(3) { operand(&tree, current, 6, random) } else { straight(&tree, false, random) };
    let fresh = random.one_in(3);
    let new = if random.one_in(3) { operand(&tree, current, 9, random) } else { straight(&tree, fresh, random) };
    let who = Credentials::new(*random.pick(&USERS), *random.pick(&[0, 50, 60, 300]));
    let request = Request { who, current, flags: 0, old, new };
    RenameCase { class: "random renames", image: tree.encode(), buffer: None, request, now: time(random), told: None }
}

/// What stops a rename, by which random ones are chosen. Neither the new side of step 6 nor new's final name does: they
/// came to be asked after these renames were chosen, and those stay what they are.
pub fn stopped_by(case: &RenameCase) -> Option<Refusal> {
    let (bytes, request) = with_stand_in(&case.image, &case.request);
    let image = Image::read(&bytes);
    let all = all_that_apply(&Call::new(&bytes, image.as_ref(), &request, PLAN_LEN));
    all.into_iter().map(|(_, refusal)| refusal).find(|refusal| refusal.clause != "into is sticky")
}

/// Paths are stored whole, so few of them are let be longer than any that can be walked.
fn is_short(case: &RenameCase) -> bool {
    case.request.old.path.len().max(case.request.new.path.len()) <= PATH_MAX + 20
}

pub fn cases(tree: &Tree, count: usize, random: &mut Random) -> RenameCases {
    let mut cases = vec![];
    while cases.len() < count {
        let tries = if cases.len() % 2 == 0 { 1 } else { TRIES };
        let mut best = attempt(tree, random);
        for _ in 1..tries {
            if is_short(&best) && stopped_by(&best).is_none() && few_are_followed(&best.image, &best.request) {
                break;
            }
            best = attempt(tree, random);
        }
        cases.extend(Some(best).filter(is_short));
    }
    cases
}
