//! The sticky bit, which asks who the user is and not in which groups.

use super::{denied, with, STRANGER};
use crate::cases::rename::{case, request, RenameCase, RenameCases, Told};
use crate::cases::trees::for_renames::{inode_at, rename_tree, GROUP, OWNER};
use crate::model::numbers::{DONE, EPERM};
use crate::model::permission::SUPERUSER;

const RENAMES: [(&str, &str, u8); 3] =
    [("/w/p/f", "/w/q/new", 7), ("/w/p/l", "/w/q/link", 9), ("/w/p/s", "/w/q/empty", 8)];

/// The groups of the tree, and ones that have the owner's number.
const LISTS: [&[u32]; 5] = [&[], &[GROUP], &[OWNER], &[GROUP, OWNER, STRANGER], &[OWNER; 16]];

/// What of the rename belongs to the stranger: nothing, the moved inode, the old parent, the new one.
const OWNED: [Option<usize>; 4] = [None, Some(0), Some(1), Some(2)];

fn one(turn: usize, owned: Option<usize>, (user, group): (u32, u32), list: &[u32]) -> RenameCase {
    let (old, new, rows) = RENAMES[turn % RENAMES.len()];
    let mut tree = rename_tree();
    let inodes = [old, "/w/p", "/w/q"].map(|path| usize::from(inode_at(&tree, path)));
    tree.inodes[inodes[1]].mode |= 0o1000;
    if let Some(owned) = owned {
        tree.inodes[inodes[owned]].owner = STRANGER;
    }
    let allowed = user != STRANGER || matches!(owned, Some(0 | 1));
    let (number, rows) = if allowed { (DONE, rows) } else { (EPERM, 0) };
    let mut request = request(old, new);
    request.who = with(user, group, list);
    case("sticky bit", &tree, request, Told { number, rows, steps: Some([3, 3]) })
}

/// A directory that only the group may use: its sticky bit is asked only of who may write there.
fn through_the_group() -> RenameCases {
    let refused = Told { number: EPERM, rows: 0, steps: Some([3, 3]) };
    let lists: [(&[u32], Told); 4] =
        [(&[GROUP], refused), (&[OWNER, GROUP], refused), (&[OWNER], denied([3, 0])), (&[], denied([3, 0]))];
    let of_list = |(list, told): (&[u32], Told)| {
        let mut request = request("/w/p/f", "/w/q/new");
        request.who = with(STRANGER, STRANGER, list);
        case("sticky bit", &super::tree_with(&[("/w/p", 0o1070, GROUP)]), request, told)
    };
    lists.map(of_list).to_vec()
}

pub fn cases() -> RenameCases {
    let mut cases = through_the_group();
    for (i, list) in LISTS.into_iter().enumerate() {
        for (j, owned) in OWNED.into_iter().enumerate() {
            cases.push(one(i + j, owned, (STRANGER, [STRANGER, GROUP, OWNER][i % 3]), list));
        }
        cases.push(one(i, None, (OWNER, STRANGER), list));
        cases.push(one(i + 1, None, (SUPERUSER, STRANGER), list));
    }
    cases
}
