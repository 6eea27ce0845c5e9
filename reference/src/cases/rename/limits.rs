//! Link counts at their limit: sixty-four names, sixty-two subdirectories.

use super::{case, request, RenameCase, RenameCases, Told};
use crate::cases::trees::builder::{Entry, Tree};
use crate::cases::trees::samples::{many_names, many_subdirectories};
use crate::model::image::FREE;
use crate::model::numbers::{EMLINK, ENOTDIR, ENOTEMPTY, EROFS};
use crate::model::permission::{Credentials, SUPERUSER};

const CLASS: &str = "link counts";

fn line(tree: &Tree, (old, new): (&str, &str), number: u8, rows: u8) -> RenameCase {
    let mut request = request(old, new);
    request.who = Credentials::new(SUPERUSER, 0);
    case(CLASS, tree, request, Told { number, rows, steps: None })
}

/// One file has the names f0 and on, one symlink l0 and on. The sample itself is read-only.
pub fn names() -> RenameCases {
    let mut tree = many_names();
    tree.inodes.iter_mut().filter(|inode| inode.kind != FREE).for_each(|inode| inode.file_system = 0);
    let lines = [
        (("/f0", "/new"), 0, 6),
        (("/fo", "/new"), 0, 6),
        (("/l0", "/new"), 0, 6),
        (("/f0", "/l0"), 0, 7),
        (("/fo", "/lo"), 0, 7),
        (("/l0", "/f0"), 0, 7),
        (("/lA", "/fo"), 0, 7),
        (("/f0", "/f1"), 0, 0),
        (("/l0", "/l0"), 0, 0),
        (("/lo", "/l0"), 0, 0),
        (("/f0", "/new/"), ENOTDIR, 0),
    ];
    let mut cases: RenameCases = lines.map(|(paths, number, rows)| line(&tree, paths, number, rows)).to_vec();
    for (paths, number, rows) in lines {
        let one_inode = number == 0 && rows == 0;
        cases.push(line(&many_names(), paths, if one_inode { 0 } else { EROFS }, 0));
    }
    cases
}

/// The sample's directory top has subdirectories named 0 and on, as many as it may. A slot more is free.
pub fn wide() -> Tree {
    let mut tree = many_subdirectories();
    tree.entries.push(Entry::default());
    tree
}

/// Subdirectory 1 is in root instead, so that top may get one more.
fn one_less() -> Tree {
    let mut tree = wide();
    let slot = tree.entries.iter().position(|entry| entry.name == b"1").expect("the name is there");
    tree.entries[slot].parent = 0;
    tree.recount();
    tree
}

/// And a new one takes its place.
fn refilled() -> Tree {
    let mut tree = one_less();
    let free = tree.inodes.iter().position(|inode| inode.kind == FREE).expect("an inode is free");
    tree.inodes[free] = tree.inodes[2].clone();
    tree.add(Entry::new(1, free as u16, b"last"));
    tree.recount();
    tree
}

pub fn subdirectories() -> RenameCases {
    let (wide, one_less, refilled) = (wide(), one_less(), refilled());
    let lines = [
        (&wide, ("/top/0", "/top/new"), 0, 6),
        (&wide, ("/top/m", "/top/new"), 0, 6),
        (&wide, ("/top/5/", "/top/new/"), 0, 6),
        (&wide, ("/top/0", "/top/2"), 0, 7),
        (&wide, ("/top/0", "/new"), 0, 7),
        (&wide, ("/top/0", "/top/2/new"), 0, 7),
        (&wide, ("/top", "/new"), 0, 6),
        (&one_less, ("/1", "/top/1"), 0, 7),
        (&one_less, ("/1", "/top/new"), 0, 7),
        (&one_less, ("/1/", "/top/new/"), 0, 7),
        (&one_less, ("/1", "/top/m/../new"), 0, 7),
        (&one_less, ("/1", "/top/2"), 0, 8),
        (&one_less, ("/1", "/top"), ENOTEMPTY, 0),
        (&one_less, ("/top/0", "/1"), 0, 8),
        (&one_less, ("/top/0", "/1/new/"), 0, 7),
        (&refilled, ("/1", "/top/new"), EMLINK, 0),
        (&refilled, ("/1", "/top/new/"), EMLINK, 0),
        (&refilled, ("/1", "/top/2"), 0, 8),
        (&refilled, ("/top/2", "/top/new"), 0, 6),
        (&refilled, ("/top/2", "/top/last"), 0, 7),
        (&refilled, ("/top/last", "/1"), 0, 8),
        (&refilled, ("/top/last", "/1/new"), 0, 7),
    ];
    lines.into_iter().map(|(tree, paths, number, rows)| line(tree, paths, number, rows)).collect()
}
