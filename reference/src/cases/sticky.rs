//! Rename cases about the sticky bit: what it asks of the old side and of the new one, and where it stands in the order.

pub mod exempt;
pub mod modes;
pub mod nearly_exempt;
pub mod one_directory;
pub mod order;
pub mod part;
pub mod random_trees;
pub mod replaced;
pub mod sides;

use crate::cases::rename::{case, components, request, RenameCase, Told};
use crate::cases::trees::builder::{Inode, Tree};
use crate::cases::trees::for_renames::{inode_at, rename_tree};
use crate::model::numbers::DONE;
use crate::model::permission::Credentials;

/// Who asks unless a case says otherwise. Nothing in the rename tree is this user's but what a case gives.
const CALLER: u32 = 200;

/// The mode bit, told here and not taken from the model.
const STICKY: u16 = 0o1000;

/// The inodes of which a sticky bit or an owner is asked.
#[derive(Clone, Copy, PartialEq, Eq)]
enum Role {
    /// The directory of the old name, and the inode under it.
    From,
    Moved,
    /// The directory of the new name, and the inode under it.
    Into,
    Replaced,
}

use Role::{From, Into, Moved, Replaced};

/// Renames from one directory into another that replace something, with their rows.
const RENAMES: [(&str, &str, u8); 6] = [
    ("/w/p/f", "/w/q/file", 8),
    ("/w/p/l", "/w/q/kept", 8),
    ("/w/p/s", "/w/q/empty", 8),
    ("/w/p/f", "/w/q/link", 9),
    ("/w/p/l", "/w/q/klink", 8),
    ("/w/p/d", "/w/q/empty/", 8),
];

/// A rename on the rename tree, which is changed step by step. The tree's owner has everything else in it.
struct Scene {
    old: &'static str,
    new: &'static str,
    tree: Tree,
    who: Credentials,
}

fn scene(old: &'static str, new: &'static str) -> Scene {
    Scene { old, new, tree: rename_tree(), who: Credentials::new(CALLER, CALLER) }
}

/// The directory that holds the last name of a path.
fn holder(path: &str) -> &str {
    path.trim_end_matches('/').rsplit_once('/').map_or("/", |(holder, _)| holder)
}

impl Scene {
    fn at(&mut self, path: &str) -> &mut Inode {
        let number = inode_at(&self.tree, path);
        &mut self.tree.inodes[usize::from(number)]
    }

    fn inode(&mut self, role: Role) -> &mut Inode {
        match role {
            From => self.at(holder(self.old)),
            Moved => self.at(self.old),
            Into => self.at(holder(self.new)),
            Replaced => self.at(self.new),
        }
    }

    fn sticky(mut self, roles: &[Role]) -> Scene {
        roles.iter().for_each(|&role| self.inode(role).mode |= STICKY);
        self
    }

    fn not_sticky(mut self, role: Role) -> Scene {
        self.inode(role).mode &= !STICKY;
        self
    }

    fn owned_by(mut self, owner: u32, roles: &[Role]) -> Scene {
        roles.iter().for_each(|&role| self.inode(role).owner = owner);
        self
    }

    fn mode(mut self, path: &str, mode: u16) -> Scene {
        self.at(path).mode = mode;
        self
    }

    fn by(self, who: Credentials) -> Scene {
        Scene { who, ..self }
    }

    /// A case whose walks are both whole and lead through no symlink.
    fn told(self, class: &'static str, number: u8, rows: u8) -> RenameCase {
        let steps = Some([components(self.old), components(self.new)]);
        self.told_as(class, Told { number, rows, steps })
    }

    fn told_as(self, class: &'static str, told: Told) -> RenameCase {
        let mut request = request(self.old, self.new);
        request.who = self.who;
        case(class, &self.tree, request, told)
    }

    fn planned(self, class: &'static str, rows: u8) -> RenameCase {
        self.told(class, DONE, rows)
    }

    fn refused(self, class: &'static str, number: u8) -> RenameCase {
        self.told(class, number, 0)
    }
}

/// Two of the renames, in turn.
fn two_of_the_renames(turn: usize) -> impl Iterator<Item = (&'static str, &'static str, u8)> {
    RENAMES.into_iter().skip(turn % 3).step_by(3)
}
