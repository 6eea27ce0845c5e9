//! Random renames on small trees in which most directories are sticky and few users own everything.

use super::STICKY;
use crate::cases::random::Random;
use crate::cases::rename::random_renames::two_paths;
use crate::cases::rename::{RenameCase, RenameCases, NOW};
use crate::cases::stand_in::with_stand_in;
use crate::cases::trees::builder::Tree;
use crate::cases::walk::random_walks::set_modes_and_texts;
use crate::model::image::{Image, FREE};
use crate::model::permission::Credentials;
use crate::model::plan::PLAN_LEN;
use crate::model::rename::call::Call;
use crate::model::rename::order;
use crate::model::request::Request;
use crate::model::walk::PATH_MAX;

const CLASS: &str = "random renames";

const OWNERS: [u32; 4] = [100, 200, 300, 300];
const USERS: [u32; 8] = [0, 100, 100, 200, 200, 300, 300, 400];
const GROUPS: [u32; 4] = [50, 100, 200, 300];
const MODES: [u16; 6] = [0o1777, 0o1777, 0o1777, 0o777, 0o1773, 0o6777];

/// One request in four is taken as it comes. For the others tries are made.
const TRIES: usize = 400;

/// A tree with modes, owners and texts for these requests, on one file system: steps 2 to 4 are others' to show.
pub fn arranged(mut tree: Tree, random: &mut Random) -> Tree {
    set_modes_and_texts(&mut tree, random);
    for inode in tree.inodes.iter_mut().filter(|inode| inode.kind != FREE) {
        inode.file_system = 0;
        inode.owner = *random.pick(&OWNERS);
    }
    for directory in tree.directories() {
        tree.inodes[usize::from(directory)].mode = *random.pick(&MODES);
    }
    tree
}

/// A request on the tree with up to two modes and two owners changed.
fn attempt(tree: &Tree, random: &mut Random) -> RenameCase {
    let mut tree = tree.clone();
    let directories = tree.directories();
    let current = *random.pick(&directories);
    for _ in 0..random.below(3) {
        tree.inodes[usize::from(*random.pick(&directories))].mode = *random.pick(&MODES);
        let any = random.below(tree.inodes.len());
        if tree.inodes[any].kind != FREE {
            tree.inodes[any].owner = *random.pick(&OWNERS);
        }
    }
    let (old, new) = two_paths(&tree, current, 4, random);
    let who = Credentials::new(*random.pick(&USERS), *random.pick(&GROUPS));
    let request = Request { who, current, flags: 0, old, new };
    RenameCase { class: CLASS, image: tree.encode(), buffer: None, request, now: NOW, told: None }
}

/// What tries are made for, in turn: that the new side refuses; that it does not, though it is asked; and that nothing
/// is replaced in a sticky directory. Whether new's final name is portable came to be asked after these were chosen.
fn is_wanted(turn: usize, case: &RenameCase) -> bool {
    let (bytes, request) = with_stand_in(&case.image, &case.request);
    let image = Image::read(&bytes);
    let call = Call::new(&bytes, image.as_ref(), &request, PLAN_LEN);
    let Some(parts) = call.parts() else { return false };
    let first = order::first(&call).map(|(_, refusal)| refusal.clause);
    let into_has_the_bit = parts.inode(parts.new_parent).mode() & STICKY != 0;
    match turn % 4 {
        1 => first == Some("into is sticky"),
        2 => into_has_the_bit && parts.replaced.is_some() && first.is_none(),
        _ => into_has_the_bit && parts.replaced.is_none() && first.is_none(),
    }
}

/// Paths are stored whole, so none is let be longer than any that can be walked.
fn is_short(case: &RenameCase) -> bool {
    case.request.old.path.len().max(case.request.new.path.len()) <= PATH_MAX
}

pub fn cases(tree: &Tree, count: usize, random: &mut Random) -> RenameCases {
    let mut cases = vec![];
    for turn in 0..count {
        let mut attempts = std::iter::repeat_with(|| attempt(tree, random)).filter(is_short);
        let any = attempts.next();
        let wanted = match turn % 4 {
            0 => None,
            _ => attempts.take(TRIES).find(|case| is_wanted(turn, case)),
        };
        cases.extend(wanted.or(any));
    }
    cases
}
