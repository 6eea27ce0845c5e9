//! Every clause of the steps on the rename tree: with a portable new name, and with another one, which comes first.

use crate::cases::rename::{case, components, request, RenameCase, RenameCases, Told};
use crate::cases::trees::builder::{Entry, Handle, Tree};
use crate::cases::trees::for_renames::{inode_at, rename_tree, CLOSED, FREE_SLOT};
use crate::model::numbers::{
    DONE, EACCES, EBUSY, EINVAL, EISDIR, EMLINK, ENOSPC, ENOTDIR, ENOTEMPTY, EPERM, EROFS, EXDEV,
};
use crate::model::permission::Credentials;

const CLASS: &str = "steps";

/// Nothing in the tree is this user's.
const CALLER: Credentials = Credentials::new(200, 200);

/// What is in the way.
#[derive(Clone, Copy)]
enum Way {
    Clear,
    Mode(&'static str, u16),
    Current,
    Open,
    NoFreeSlot,
}

use Way::{Clear, Current, Mode, NoFreeSlot, Open};

/// Each line has one clause in its way, but for the second: a sticky directory on a read-only file system.
const LINES: [(&str, &str, Way, u8); 24] = [
    ("/w/p/f", "/w/q/pf", Clear, DONE),
    ("/r/p/f", "/r/q/new", Clear, EROFS),
    ("/w/p/f", "/r/q/file", Mode("/r/q", 0o1777), EROFS),
    ("/w/p/f", "/o/q/new", Clear, EXDEV),
    ("/w/p/m", "/w/q/new", Clear, EBUSY),
    ("/w/p/s", "/w/q/mount", Clear, EBUSY),
    ("/w/p/f", "/w/q/new", Mode("/w/p", 0o555), EACCES),
    ("/w/p/f", "/w/q/file", Mode("/w/q", 0o555), EACCES),
    ("/w/p/f", "/w/q/new", Mode("/w/p", 0o1777), EPERM),
    ("/w/p/f", "/w/q/file", Mode("/w/q", 0o1777), EPERM),
    ("/w/p/d", "/w/p/d/new", Clear, EINVAL),
    ("/w/p/d", "/w/p/d/e/new/", Clear, EINVAL),
    ("/w/p/s", "/w/q/file", Clear, ENOTDIR),
    ("/w/p/d", "/w/q/klink", Clear, ENOTDIR),
    ("/w/p/f", "/w/q/empty", Clear, EISDIR),
    ("/w/p/l", "/w/q/full/", Clear, EISDIR),
    ("/w/p/f", "/w/q/new/", Clear, ENOTDIR),
    ("/w/p/s", "/w/q/new", Mode("/w/p/s", 0o555), EACCES),
    ("/w/p/s", "/w/q/full", Clear, ENOTEMPTY),
    ("/w/p/s", "/w/q/empty", Current, EBUSY),
    ("/w/p/f", "/w/q/file", Open, EBUSY),
    ("/w/p/l", "/w/q/link", Open, EBUSY),
    ("/w/p/s", "/w/p/d/wide/new", Clear, EMLINK),
    ("/w/p/f", "/w/q/new", NoFreeSlot, ENOSPC),
];

fn put(way: Way, new: &str, tree: &mut Tree) {
    match way {
        Clear | Current => {}
        Mode(path, mode) => {
            let inode = inode_at(tree, path);
            tree.inodes[usize::from(inode)].mode = mode;
        }
        Open => tree.handles[CLOSED[0]] = Handle { state: 1, inode: inode_at(tree, new) },
        NoFreeSlot => {
            let [directory, kept] = ["/w/q", "/w/q/kept"].map(|path| inode_at(tree, path));
            tree.entries[FREE_SLOT] = Entry::new(directory, kept, b"z");
            tree.inodes[usize::from(kept)].links += 1;
        }
    }
}

/// The last byte of new's final name becomes another one, in the image too where the name exists.
fn exchange_last_byte(tree: &mut Tree, path: &mut [u8], byte: u8) {
    let last = path.iter().rposition(|&byte| byte != b'/').expect("new has a name");
    let holder_end = path[..last].iter().rposition(|&byte| byte == b'/').expect("new is absolute");
    let holder = inode_at(tree, &String::from_utf8_lossy(&path[..holder_end]));
    let name = path[holder_end + 1..=last].to_vec();
    let entry = tree.entries.iter_mut().find(|entry| entry.parent == holder && entry.name == name);
    if let Some(entry) = entry {
        entry.name[name.len() - 1] = byte;
    }
    path[last] = byte;
}

fn both((turn, (old, new, way, number)): (usize, (&str, &str, Way, u8))) -> [RenameCase; 2] {
    let mut tree = rename_tree();
    put(way, new, &mut tree);
    let mut request = request(old, new);
    request.who = CALLER;
    if let Current = way {
        request.current = inode_at(&tree, new);
    }
    let told = |number| Told { number, rows: 0, steps: Some([components(old), components(new)]) };
    let portable = case(CLASS, &tree, request.clone(), told(number));
    exchange_last_byte(&mut tree, &mut request.new.path, b"~ \xff:\x01"[turn % 5]);
    [portable, case(CLASS, &tree, request, told(EPERM))]
}

pub fn cases() -> RenameCases {
    LINES.into_iter().enumerate().flat_map(both).collect()
}
