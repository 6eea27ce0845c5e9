//! What both walks of a rename or an exchange have found, and the steps that may still refuse a rename (rules 64 to 77).

use super::image::Image;
use super::walk::{Found, Name};
use crate::model::image::{Handle, Inode, DIRECTORY, LINKS_MAX};
use crate::model::numbers::{EACCES, EBUSY, EINVAL, EISDIR, EMLINK, ENOSPC, ENOTDIR, ENOTEMPTY, EPERM, EROFS, EXDEV};
use crate::model::permission::{may_write, Credentials, SUPERUSER};
use crate::model::request::Request;

const READ_ONLY: u8 = 128;
const STICKY: u16 = 512;

/// An inode with its number, and the slot of the entry that led to it.
#[derive(Clone, Copy)]
pub struct Named<'a> {
    pub slot: u16,
    pub number: u16,
    pub inode: Inode<'a>,
}

/// A directory with its number.
#[derive(Clone, Copy)]
pub struct Directory<'a> {
    pub number: u16,
    pub inode: Inode<'a>,
}

pub struct Case<'a> {
    pub image: &'a Image<'a>,
    who: &'a Credentials,
    current: u16,
    pub moved: Named<'a>,
    pub replaced: Option<Named<'a>>,
    pub from: Directory<'a>,
    pub into: Directory<'a>,
    pub name: Name,
    slash: bool,
}

pub fn is_directory(inode: Inode) -> bool {
    inode.kind() == DIRECTORY
}

impl<'a> Case<'a> {
    /// Nothing where old names nothing, which no whole walk of old leaves open.
    pub fn new(image: &'a Image<'a>, request: &'a Request, old: Found, new: Found) -> Option<Case<'a>> {
        let inode = |number: u16| Inode(&image.inodes[usize::from(number)]);
        let named =
            |found: &Found| found.existing.map(|it| Named { slot: it.slot, number: it.inode, inode: inode(it.inode) });
        Some(Case {
            image,
            who: &request.who,
            current: request.current,
            moved: named(&old)?,
            replaced: named(&new),
            from: Directory { number: old.directory, inode: inode(old.directory) },
            into: Directory { number: new.directory, inode: inode(new.directory) },
            name: new.name,
            slash: new.slash,
        })
    }

    /// Steps 2 to 13 of a rename: the number of the first that applies.
    pub fn refusal(&self) -> Result<(), u8> {
        self.parents_refusal()?;
        self.kinds()?;
        self.links_and_slots()
    }

    /// Steps 2 to 6, which an exchange has too.
    pub fn parents_refusal(&self) -> Result<(), u8> {
        self.file_systems()?;
        self.owners()
    }

    /// Steps 2 to 4.
    fn file_systems(&self) -> Result<(), u8> {
        let (from, into) = (self.from.inode.file_system(), self.into.inode.file_system());
        let is_mounted = |inode: Inode, on: u8| is_directory(inode) && inode.file_system() != on;
        if from >= READ_ONLY || into >= READ_ONLY {
            return Err(EROFS);
        }
        if from != into {
            return Err(EXDEV);
        }
        if is_mounted(self.moved.inode, from) || self.replaced.is_some_and(|it| is_mounted(it.inode, into)) {
            return Err(EBUSY);
        }
        Ok(())
    }

    /// Steps 5 and 6.
    fn owners(&self) -> Result<(), u8> {
        if !self.may_write(self.from.inode) || !self.may_write(self.into.inode) {
            return Err(EACCES);
        }
        let is_kept = |inode: Inode, holder: Inode| {
            holder.mode() & STICKY != 0 && ![SUPERUSER, inode.owner(), holder.owner()].contains(&self.who.user)
        };
        let replaced_is_kept = self.replaced.is_some_and(|it| is_kept(it.inode, self.into.inode));
        if is_kept(self.moved.inode, self.from.inode) || replaced_is_kept {
            return Err(EPERM);
        }
        Ok(())
    }

    /// Steps 7 to 9. Only a directory can be above another, so that nothing else is climbed for.
    fn kinds(&self) -> Result<(), u8> {
        let moves_a_directory = is_directory(self.moved.inode);
        if moves_a_directory && self.is_or_is_above(self.moved, self.into) {
            return Err(EINVAL);
        }
        match self.replaced {
            Some(replaced) if moves_a_directory && !is_directory(replaced.inode) => return Err(ENOTDIR),
            Some(replaced) if !moves_a_directory && is_directory(replaced.inode) => return Err(EISDIR),
            None if self.slash && !moves_a_directory => return Err(ENOTDIR),
            _ => (),
        }
        if moves_a_directory && !self.is_within_one_directory() && !self.may_write(self.moved.inode) {
            return Err(EACCES);
        }
        Ok(())
    }

    /// Steps 10 to 13.
    fn links_and_slots(&self) -> Result<(), u8> {
        if let Some(replaced) = self.replaced {
            return self.may_be_replaced(replaced);
        }
        let gains_a_directory = is_directory(self.moved.inode) && !self.is_within_one_directory();
        if gains_a_directory && self.into.inode.links() == LINKS_MAX {
            return Err(EMLINK);
        }
        self.lowest_free_slot().map(|_| ()).ok_or(ENOSPC)
    }

    /// Steps 10 and 11.
    fn may_be_replaced(&self, replaced: Named) -> Result<(), u8> {
        let number = replaced.number.to_le_bytes();
        let has_entries = || self.image.entries.iter().any(|record| record[4] != 0 && record[..2] == number);
        if is_directory(replaced.inode) && has_entries() {
            return Err(ENOTEMPTY);
        }
        let is_it = |record: &[u8; 8]| Handle(record).is_open() && Handle(record).inode() == replaced.number;
        let is_in_use = || replaced.number == self.current || self.image.handles.iter().any(is_it);
        if replaced.names_left() == 0 && is_in_use() {
            return Err(EBUSY);
        }
        Ok(())
    }

    pub fn may_write(&self, inode: Inode) -> bool {
        may_write(self.who, inode)
    }

    /// By the directories' fields.
    pub fn is_or_is_above(&self, named: Named, mut at: Directory<'a>) -> bool {
        while at.number != named.number && at.number != 0 {
            let number = at.inode.field();
            at = Directory { number, inode: Inode(&self.image.inodes[usize::from(number)]) };
        }
        at.number == named.number
    }

    pub fn is_within_one_directory(&self) -> bool {
        self.from.number == self.into.number
    }

    pub fn lowest_free_slot(&self) -> Option<u16> {
        self.image.entries.iter().position(|record| record[4] == 0).map(|slot| slot as u16)
    }
}

impl Named<'_> {
    /// How many names a replaced inode has besides the one that it loses. A directory has no other.
    pub fn names_left(&self) -> u16 {
        match is_directory(self.inode) {
            true => 0,
            false => self.inode.links() - 1,
        }
    }
}
