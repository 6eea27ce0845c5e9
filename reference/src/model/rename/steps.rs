//! What is asked behind both walks, clause by clause (rules 64a to 77).

use super::parts::Parts;
use crate::model::image::LINKS_MAX;
use crate::model::permission::{may_write, SUPERUSER};

/// The lowest of the file systems that are read-only.
const READ_ONLY: u8 = 128;

/// The mode bit of a directory in which names are taken from their inodes by owners only.
const STICKY: u16 = 512;

/// Also where it is another name of the moved inode.
pub fn new_must_not_exist(parts: &Parts) -> bool {
    parts.no_replace && parts.replaced.is_some()
}

/// There is nothing to exchange with.
pub fn new_must_exist(parts: &Parts) -> bool {
    parts.replaced.is_none()
}

/// Old and new are names of one inode, and both stay.
pub fn one_inode(parts: &Parts) -> bool {
    parts.replaced.is_some_and(|replaced| replaced.inode == parts.moved.inode)
}

fn is_read_only(parts: &Parts, directory: u16) -> bool {
    parts.inode(directory).file_system() >= READ_ONLY
}

pub fn from_is_read_only(parts: &Parts) -> bool {
    is_read_only(parts, parts.old_parent)
}

pub fn into_is_read_only(parts: &Parts) -> bool {
    is_read_only(parts, parts.new_parent)
}

pub fn two_file_systems(parts: &Parts) -> bool {
    parts.inode(parts.old_parent).file_system() != parts.inode(parts.new_parent).file_system()
}

/// A directory on another file system than the one that holds it.
fn is_mounted(parts: &Parts, inode: u16, holder: u16) -> bool {
    parts.image.is_directory(inode) && parts.inode(inode).file_system() != parts.inode(holder).file_system()
}

pub fn moved_is_a_mount_point(parts: &Parts) -> bool {
    is_mounted(parts, parts.moved.inode, parts.old_parent)
}

pub fn replaced_is_a_mount_point(parts: &Parts) -> bool {
    parts.replaced.is_some_and(|replaced| is_mounted(parts, replaced.inode, parts.new_parent))
}

pub fn write_denied_on_from(parts: &Parts) -> bool {
    !may_write(parts.who, parts.inode(parts.old_parent))
}

pub fn write_denied_on_into(parts: &Parts) -> bool {
    !may_write(parts.who, parts.inode(parts.new_parent))
}

/// Whether the sticky bit of a directory keeps an inode that it holds from the user.
fn is_kept_by_sticky_bit(parts: &Parts, inode: u16, holder: u16) -> bool {
    let holder = parts.inode(holder);
    let allowed = [SUPERUSER, parts.inode(inode).owner(), holder.owner()];
    holder.mode() & STICKY != 0 && !allowed.contains(&parts.who.user)
}

pub fn from_is_sticky(parts: &Parts) -> bool {
    is_kept_by_sticky_bit(parts, parts.moved.inode, parts.old_parent)
}

/// A name that is free keeps nothing from anybody.
pub fn into_is_sticky(parts: &Parts) -> bool {
    parts.replaced.is_some_and(|replaced| is_kept_by_sticky_bit(parts, replaced.inode, parts.new_parent))
}

pub fn moved_is_into(parts: &Parts) -> bool {
    parts.moved.inode == parts.new_parent
}

/// Climbs from a directory to root.
fn is_above(parts: &Parts, inode: u16, directory: u16) -> bool {
    let parent = |&directory: &u16| (directory != 0).then(|| parts.inode(directory).field());
    let mut above = std::iter::successors(Some(directory), parent).skip(1);
    above.any(|directory| directory == inode)
}

pub fn moved_is_above_into(parts: &Parts) -> bool {
    is_above(parts, parts.moved.inode, parts.new_parent)
}

pub fn replaced_is_from(parts: &Parts) -> bool {
    parts.replaced.is_some_and(|replaced| replaced.inode == parts.old_parent)
}

pub fn replaced_is_above_from(parts: &Parts) -> bool {
    parts.replaced.is_some_and(|replaced| is_above(parts, replaced.inode, parts.old_parent))
}

pub fn directory_onto_none(parts: &Parts) -> bool {
    parts.moves_a_directory() && parts.replaced.is_some() && !parts.replaces_a_directory()
}

pub fn none_onto_a_directory(parts: &Parts) -> bool {
    parts.replaces_a_directory() && !parts.moves_a_directory()
}

pub fn slash_behind_none(parts: &Parts) -> bool {
    parts.replaced.is_none() && parts.slash && !parts.moves_a_directory()
}

/// The parent that a directory records changes, which writes to the directory itself.
pub fn write_denied_on_moved(parts: &Parts) -> bool {
    let moves_up = parts.moves_a_directory() && !parts.within_one_directory();
    moves_up && !may_write(parts.who, parts.inode(parts.moved.inode))
}

/// An exchange gives the replaced directory another parent as well.
pub fn write_denied_on_replaced(parts: &Parts) -> bool {
    let moves_up = parts.replaces_a_directory() && !parts.within_one_directory();
    moves_up && parts.replaced.is_some_and(|replaced| !may_write(parts.who, parts.inode(replaced.inode)))
}

pub fn replaced_has_entries(parts: &Parts) -> bool {
    let has_entries = |inode: u16| parts.image.entries().any(|entry| entry.name_len() != 0 && entry.parent() == inode);
    parts.replaces_a_directory() && parts.replaced.is_some_and(|replaced| has_entries(replaced.inode))
}

/// The inode that loses its last name, if any does.
fn freed(parts: &Parts) -> Option<u16> {
    parts.replaced.filter(|&replaced| parts.names_left(replaced) == 0).map(|replaced| replaced.inode)
}

pub fn replaced_is_the_current_directory(parts: &Parts) -> bool {
    freed(parts) == Some(parts.current)
}

pub fn replaced_is_open(parts: &Parts) -> bool {
    let is_open = |inode: u16| parts.image.handles().any(|handle| handle.is_open() && handle.inode() == inode);
    freed(parts).is_some_and(is_open)
}

pub fn too_many_links(parts: &Parts) -> bool {
    let gains_a_directory = parts.moves_a_directory() && !parts.within_one_directory() && parts.replaced.is_none();
    gains_a_directory && parts.inode(parts.new_parent).links() == LINKS_MAX
}

/// Where one of two is a directory, the parent that the other one leaves gains it.
pub fn too_many_links_by_an_exchange(parts: &Parts) -> bool {
    let gains = match (parts.moves_a_directory(), parts.replaces_a_directory()) {
        (true, false) => parts.new_parent,
        (false, true) => parts.old_parent,
        _ => return false,
    };
    let changes_parents = parts.replaced.is_some() && !parts.within_one_directory();
    changes_parents && parts.inode(gains).links() == LINKS_MAX
}

/// Also within one directory: the slot that the old name is in does not count as free.
pub fn no_free_slot(parts: &Parts) -> bool {
    parts.replaced.is_none() && parts.lowest_free_slot().is_none()
}
