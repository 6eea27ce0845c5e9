//! The parts of a rename, as both walks have found them (rule 64).

use crate::model::image::{Image, Inode, DIRECTORY};
use crate::model::permission::Credentials;
use crate::model::request::{Request, EXCHANGE, NO_REPLACE};
use crate::model::walk::{Existing, Found};

/// The record that a number beyond the count is read as.
const NO_INODE: [u8; 32] = [0; 32];

pub struct Parts<'a> {
    pub image: &'a Image<'a>,
    pub who: &'a Credentials,
    pub current: u16,
    /// An existing new is refused.
    pub no_replace: bool,
    /// Moved and replaced change places, and nothing is replaced in truth.
    pub exchange: bool,
    /// The inode that gets another name (S), and the slot of the name that it loses.
    pub moved: Existing,
    /// The inode that new names already (T), and its slot.
    pub replaced: Option<Existing>,
    /// The directory of the old name (P).
    pub old_parent: u16,
    /// The directory of the new name (Q).
    pub new_parent: u16,
    pub new_name: Vec<u8>,
    /// Whether new ends in a slash.
    pub slash: bool,
}

impl<'a> Parts<'a> {
    /// Nothing where old has no end, which no whole walk of old leaves open.
    pub fn new(image: &'a Image<'a>, request: &'a Request, [old, new]: [Found; 2]) -> Option<Parts<'a>> {
        Some(Parts {
            image,
            who: &request.who,
            current: request.current,
            no_replace: request.flags == NO_REPLACE,
            exchange: request.flags == EXCHANGE,
            moved: old.existing?,
            replaced: new.existing,
            old_parent: old.directory,
            new_parent: new.directory,
            new_name: new.name,
            slash: new.slash,
        })
    }

    pub fn inode(&self, number: u16) -> Inode<'a> {
        self.image.inode(number).unwrap_or(Inode(&NO_INODE))
    }

    pub fn moves_a_directory(&self) -> bool {
        self.image.is_directory(self.moved.inode)
    }

    pub fn replaces_a_directory(&self) -> bool {
        self.replaced.is_some_and(|replaced| self.image.is_directory(replaced.inode))
    }

    pub fn within_one_directory(&self) -> bool {
        self.old_parent == self.new_parent
    }

    /// How many names the replaced inode has besides the one that it loses. A directory has no other.
    pub fn names_left(&self, replaced: Existing) -> u16 {
        let inode = self.inode(replaced.inode);
        match inode.kind() {
            DIRECTORY => 0,
            _ => inode.links() - 1,
        }
    }

    pub fn lowest_free_slot(&self) -> Option<u16> {
        (0..).zip(self.image.entries()).find(|(_, entry)| entry.name_len() == 0).map(|(slot, _)| slot)
    }
}
