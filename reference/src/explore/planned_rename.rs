//! A rename or an exchange with rows, and what its crashes may leave.

use super::Breach;
use crate::model::image::{Entry, Image};
use crate::model::land::land;
use crate::model::numbers::DONE;
use crate::model::plan::{Row, PLAN_LEN};
use crate::model::rename::finished::finished;
use crate::model::rename::rename;
use crate::model::request::{Request, EXCHANGE};
use crate::model::walk::{walk_both, Existing};

/// The group of the row whose landing decides: a rename's new entry, or an exchange's journal record.
fn deciding_group(request: &Request) -> u8 {
    match request.flags {
        EXCHANGE => 1,
        _ => 2,
    }
}

#[derive(Clone)]
pub struct PlannedRename {
    pub before: Vec<u8>,
    pub finished: Vec<u8>,
    pub plan: Vec<u8>,
    pub rows: u8,
    /// The row whose landing decides.
    pub deciding: usize,
    is_exchange: bool,
    /// S and T as the walks before the call find them, with their slots.
    moved: Existing,
    replaced: Option<Existing>,
}

impl PlannedRename {
    /// Nothing where the rename is refused, or has nothing to do.
    pub fn new(before: &[u8], request: &Request, now: u64) -> Option<PlannedRename> {
        let mut plan = vec![0; PLAN_LEN];
        let rows = rename(before, request, now, &mut plan).rows;
        let [old, new] = walk_both(&Image::read(before)?, request).found?;
        let group = deciding_group(request);
        let deciding = (0..rows.into()).find(|&row| Row::read(&plan, row).group == group)?;
        Some(PlannedRename {
            before: before.to_vec(),
            finished: finished(before, request, now)?,
            plan,
            rows,
            deciding,
            is_exchange: request.flags == EXCHANGE,
            moved: old.existing?,
            replaced: new.existing,
        })
    }

    /// The image with just these rows landed.
    pub fn after(&self, rows: impl IntoIterator<Item = usize>) -> Vec<u8> {
        let mut image = self.before.clone();
        for row in rows {
            assert_eq!(land(&mut image, &self.plan, row as u64), DONE);
        }
        image
    }

    /// What holds of the names at any time, whatever has landed.
    pub fn names_hold(&self, image: &[u8]) -> Result<(), Breach> {
        let (before, image) = Image::read(&self.before).zip(Image::read(image)).ok_or(Breach::NoName)?;
        match self.replaced {
            Some(replaced) if self.is_exchange => self.names_of_both_hold(&before, &image, replaced),
            replaced => self.name_of_moved_holds(&before, &image, replaced),
        }
    }

    /// Rule 117: the moved inode has a name, and the replaced one's entry leads to one of the two.
    fn name_of_moved_holds(&self, before: &Image, image: &Image, replaced: Option<Existing>) -> Result<(), Breach> {
        if names(image, self.moved.inode) == 0 {
            return Err(Breach::NoName);
        }
        match replaced {
            Some(replaced) => self.slot_holds(before, image, replaced.slot).map(|_| ()),
            None => Ok(()),
        }
    }

    /// Rule 117a: both entries keep parent and name, and each leads to one of the two inodes. An inode is without a name
    /// only while both of them lead to the other one, and if it had no name but the one that was exchanged.
    fn names_of_both_hold(&self, before: &Image, image: &Image, replaced: Existing) -> Result<(), Breach> {
        let moved = self.moved;
        let targets = [self.slot_holds(before, image, moved.slot)?, self.slot_holds(before, image, replaced.slot)?];
        for (inode, other) in [(moved.inode, replaced.inode), (replaced.inode, moved.inode)] {
            let may_be_nameless = targets == [other; 2] && names(before, inode) == 1;
            if names(image, inode) == 0 && !may_be_nameless {
                return Err(Breach::NoName);
            }
        }
        Ok(())
    }

    /// The target of a slot that keeps its parent and its name, and leads to one of the two inodes.
    fn slot_holds(&self, before: &Image, image: &Image, slot: u16) -> Result<u16, Breach> {
        let same_name = |one: Entry, other: Entry| one.0[..2] == other.0[..2] && one.0[4..] == other.0[4..];
        let either = |inode: u16| inode == self.moved.inode || self.replaced.is_some_and(|it| it.inode == inode);
        (before.entries().nth(slot.into()).zip(image.entries().nth(slot.into())))
            .filter(|(was, is)| same_name(*was, *is) && either(is.target()))
            .map(|(_, is)| is.target())
            .ok_or(Breach::SlotLost)
    }
}

/// How many used entries lead to an inode.
fn names(image: &Image, inode: u16) -> usize {
    image.entries().filter(|entry| entry.name_len() != 0 && entry.target() == inode).count()
}
