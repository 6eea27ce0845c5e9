//! Walk and rename cases about new's final name, which has to be portable: most requests are there as both.

pub mod allowed;
pub mod bytes;
pub mod lengths;
pub mod order;
pub mod part;
pub mod random_names;
pub mod slashes;
pub mod steps;
pub mod symlinks;
pub mod targets;

use crate::cases::rename::{case, RenameCase, Told};
use crate::cases::trees::builder::Tree;
use crate::cases::trees::for_names::names_tree;
use crate::cases::trees::for_renames::{GROUP, OWNER};
use crate::cases::walk::{Told as WalkTold, WalkCase};
use crate::model::numbers::{DONE, EPERM};
use crate::model::permission::Credentials;
use crate::model::request::{Operand, Request, CURRENT};

/// The bytes that new's final name may hold, told here and not taken from the model.
pub const PORTABLE: &[u8; 65] = b"ABCDEFGHIJKLMNOPQRSTUVWXYZabcdefghijklmnopqrstuvwxyz0123456789._-";

pub fn is_portable(name: &[u8]) -> bool {
    name.iter().all(|byte| PORTABLE.contains(byte))
}

/// What becomes of a request.
#[derive(Clone, Copy, Debug, PartialEq, Eq)]
pub enum Fate {
    /// A walk is refused, or the request itself.
    Walk(u8),
    /// Both walks are whole, and a step refuses.
    Step(u8),
    /// The rename has so many rows.
    Rows(u8),
}

use Fate::{Rows, Step, Walk};

/// The fate that most cases here are about.
const REFUSED: Fate = Walk(EPERM);

/// A request of the tree's owner on the names tree, with its fate and the counts of both walks.
#[derive(Clone)]
pub struct Asked {
    class: &'static str,
    tree: Tree,
    request: Request,
    fate: Fate,
    steps: [u16; 2],
}

fn asked(class: &'static str, old: &[u8], new: &[u8], fate: Fate, steps: [u16; 2]) -> Asked {
    let (old, new) = (Operand::new(CURRENT, old), Operand::new(CURRENT, new));
    let request = Request { who: Credentials::new(OWNER, GROUP), current: 0, flags: 0, old, new };
    Asked { class, tree: names_tree(), request, fate, steps }
}

impl Asked {
    fn by(mut self, user: u32) -> Asked {
        self.request.who = Credentials::new(user, user);
        self
    }

    fn new_from(mut self, start: u8) -> Asked {
        self.request.new.start = start;
        self
    }

    fn mode(mut self, inode: u16, mode: u16) -> Asked {
        self.tree.inodes[usize::from(inode)].mode = mode;
        self
    }

    /// One byte of the name in a slot is another one.
    fn with_byte(mut self, slot: usize, at: usize, byte: u8) -> Asked {
        self.tree.entries[slot].name[at] = byte;
        self
    }

    pub fn as_walk(&self) -> WalkCase {
        let number = match self.fate {
            Walk(number) => number,
            Step(_) | Rows(_) => DONE,
        };
        let told = Some(WalkTold { number, steps: self.steps });
        WalkCase { class: self.class, tree: self.tree.clone(), request: self.request.clone(), told }
    }

    pub fn as_rename(&self) -> RenameCase {
        let (number, rows) = match self.fate {
            Walk(number) | Step(number) => (number, 0),
            Rows(rows) => (DONE, rows),
        };
        let told = Told { number, rows, steps: Some(self.steps) };
        case(self.class, &self.tree, self.request.clone(), told)
    }
}
