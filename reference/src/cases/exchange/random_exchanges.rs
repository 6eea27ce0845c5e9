//! Random requests with flags on random trees whose names are portable.

use super::{EXCHANGE, NO_REPLACE};
use crate::cases::random::Random;
use crate::cases::rename::random_renames::{straight, two_paths};
use crate::cases::rename::{RenameCase, RenameCases};
use crate::cases::trees::builder::Tree;
use crate::cases::walk::random_walks::set_modes_and_texts;
use crate::model::image::{Image, FREE};
use crate::model::permission::Credentials;
use crate::model::plan::PLAN_LEN;
use crate::model::rename::call::Call;
use crate::model::rename::order;
use crate::model::request::Request;
use crate::model::walk::PATH_MAX;

const USERS: [u32; 5] = [0, 100, 100, 200, 300];
const GROUPS: [u32; 4] = [0, 50, 60, 300];
const MODES: [u16; 8] = [0o777, 0o777, 0o777, 0o755, 0o775, 0o1777, 0o1777, 0o555];

/// Mostly exchanges.
const FLAGS: [u32; 10] = [EXCHANGE, EXCHANGE, EXCHANGE, EXCHANGE, EXCHANGE, EXCHANGE, NO_REPLACE, NO_REPLACE, 0, 3];

/// Two of three requests are taken as they come. For the third tries are made until nothing stops one.
const TRIES: usize = 200;

/// A tree mostly on one file system, in which every name is portable.
pub fn arranged(mut tree: Tree, random: &mut Random) -> Tree {
    for (slot, entry) in tree.entries.iter_mut().enumerate().filter(|(_, entry)| !entry.is_free()) {
        entry.name = format!("e{slot}").into_bytes();
    }
    set_modes_and_texts(&mut tree, random);
    let one_file_system = !random.one_in(4);
    for inode in tree.inodes.iter_mut().filter(|inode| inode.kind != FREE) {
        inode.file_system = if one_file_system { 0 } else { inode.file_system };
        inode.mode = *random.pick(&MODES);
    }
    tree
}

fn attempt(tree: &Tree, random: &mut Random) -> RenameCase {
    let current = *random.pick(&tree.directories());
    let (old, any) = two_paths(tree, current, 5, random);
    let new = if random.one_in(3) { any } else { straight(tree, false, random) };
    let mut who = Credentials::new(*random.pick(&USERS), *random.pick(&GROUPS));
    if random.one_in(4) {
        who.further = (0..1 + random.below(3)).map(|_| *random.pick(&GROUPS)).collect();
    }
    let request = Request { who, current, flags: *random.pick(&FLAGS), old, new };
    let now = if random.one_in(2) { random.word() } else { random.below(3000) as u64 };
    RenameCase { class: "random requests", image: tree.encode(), buffer: None, request, now, told: None }
}

/// Paths are stored whole, so few of them are let be longer than any that can be walked.
fn is_short(case: &RenameCase) -> bool {
    case.request.old.path.len().max(case.request.new.path.len()) <= PATH_MAX + 20
}

/// An exchange that nothing stops, two names of one file being no such.
fn has_rows(case: &RenameCase) -> bool {
    let image = Image::read(&case.image);
    let call = Call::new(&case.image, image.as_ref(), &case.request, PLAN_LEN);
    case.request.flags == EXCHANGE && order::first(&call).is_none()
}

pub fn cases(tree: &Tree, count: usize, random: &mut Random) -> RenameCases {
    let mut cases = vec![];
    for turn in 0..count {
        let mut attempts = std::iter::repeat_with(|| attempt(tree, random)).filter(is_short);
        let any = attempts.next();
        let wanted = match turn % 3 {
            0 => attempts.take(TRIES).find(has_rows),
            _ => None,
        };
        cases.extend(wanted.or(any));
    }
    cases
}
