//! The check: each section in one pass, then what the entries add up to, the ways to root, and last the duplicates.

use super::duplicates::no_name_is_taken_twice;
use super::image::Image;
use crate::model::image::{
    Entry, Handle, Inode, CLOSED, DIRECTORY, FILE, FREE, LINKS_MAX, NAME_MAX, SYMLINK, TEXT_MAX,
};
use crate::model::numbers::{DONE, INCONSISTENT, JOURNAL_PENDING};

const INODES_MAX: usize = 512;
const TEXTS_MAX: usize = 64;
const MODE_LIMIT: u16 = 4096;

/// The answer for any bytes (rule 62).
pub fn check(bytes: &[u8]) -> u8 {
    match Image::read(bytes) {
        None => INCONSISTENT,
        Some(image) if !image.journal_is_clear() => JOURNAL_PENDING,
        Some(image) if is_consistent(&image) => DONE,
        Some(_) => INCONSISTENT,
    }
}

/// Whether all records but the journal's are right. The first that is not ends it, and the sort comes last.
pub fn is_consistent(image: &Image) -> bool {
    let mut links = Links { names: [0; INODES_MAX], subdirectories: [0; INODES_MAX] };
    inodes_and_texts_are_right(image)
        && image.handles.iter().all(|record| handle_is_right(image, Handle(record)))
        && image.entries.iter().all(|record| entry_is_right(image, record, &mut links))
        && links.are_those_of(image)
        && every_directory_leads_to_root(image)
        && no_name_is_taken_twice(image.entries)
}

/// For each inode, the used entries that target it, and the used entries in it that target a directory.
struct Links {
    names: [u16; INODES_MAX],
    subdirectories: [u16; INODES_MAX],
}

/// Rules 6, 8, 9, 11, 12, 15, 17, 19, 20 and 36 to 39.
fn inodes_and_texts_are_right(image: &Image) -> bool {
    let root = Inode(&image.inodes[0]);
    let owned = &mut [false; TEXTS_MAX][..image.texts.len()];
    root.kind() == DIRECTORY
        && root.field() == 0
        && image.inodes.iter().all(|record| inode_is_right(record, owned))
        && image.texts.iter().zip(owned).all(|(text, owned)| text_is_right(text, *owned))
}

/// A symlink takes its text, which has to be there and not yet taken; whether it is in use is asked of the text.
fn inode_is_right(record: &[u8; 32], owned: &mut [bool]) -> bool {
    let inode = Inode(record);
    let mut own = |text: u16| owned.get_mut(usize::from(text)).is_some_and(|owned| !std::mem::replace(owned, true));
    match inode.kind() {
        FREE => *record == [0; 32],
        FILE => inode.mode() < MODE_LIMIT && inode.field() == 0,
        DIRECTORY => inode.mode() < MODE_LIMIT,
        SYMLINK => inode.mode() < MODE_LIMIT && own(inode.field()),
        _ => false,
    }
}

/// A text has an owner exactly if it is in use. Zeros stand behind it and only there.
fn text_is_right([len, text @ ..]: &[u8; 64], owned: bool) -> bool {
    // Every byte is looked at, without a branch, which is quicker than to stop at the first that is wrong.
    let wrong_at = |at: u8| (text[usize::from(at)] != 0) != (at < *len);
    let wrong = (0..TEXT_MAX as u8).fold(false, |wrong, at| wrong | wrong_at(at));
    !wrong && usize::from(*len) <= TEXT_MAX && owned == (*len != 0)
}

/// Rules 7, 13, 18 and 40.
fn handle_is_right(image: &Image, handle: Handle) -> bool {
    if handle.state() == CLOSED {
        return *handle.0 == [0; 8];
    }
    let names_an_inode = image.inode(handle.inode()).is_some_and(|inode| inode.kind() != FREE);
    handle.is_open() && handle.second_byte() == 0 && *handle.pad() == [0; 4] && names_an_inode
}

/// Rules 10, 16, 21 to 26, 29 and 35; and the entry is counted.
fn entry_is_right(image: &Image, record: &[u8; 32], links: &mut Links) -> bool {
    let entry = Entry(record);
    if entry.name_len() == 0 {
        return *record == [0; 32];
    }
    let Some((holder, held)) = image.inode(entry.parent()).zip(image.inode(entry.target())) else {
        return false;
    };
    let is_directory = held.kind() == DIRECTORY;
    links.names[usize::from(entry.target())] += 1;
    links.subdirectories[usize::from(entry.parent())] += u16::from(is_directory);
    let fits = match is_directory {
        true => held.field() == entry.parent(),
        false => held.kind() != FREE && held.file_system() == holder.file_system(),
    };
    fits && entry.target() != 0 && holder.kind() == DIRECTORY && name_is_right(record)
}

/// Zeros stand behind the name and only there, and no slash anywhere.
fn name_is_right(record: &[u8; 32]) -> bool {
    let (len, name) = (record[4], &record[8..]);
    let wrong_at = |at: u8| ((name[usize::from(at)] != 0) != (at < len)) | (name[usize::from(at)] == b'/');
    let wrong = (0..NAME_MAX as u8).fold(false, |wrong, at| wrong | wrong_at(at));
    let is_dots = matches!(name, [b'.', 0, ..] | [b'.', b'.', 0, ..]);
    !wrong && usize::from(len) <= NAME_MAX && record[5..8] == [0; 3] && !is_dots
}

impl Links {
    /// Rules 28 and 31 to 34.
    fn are_those_of(&self, image: &Image) -> bool {
        image.inodes.iter().enumerate().all(|(number, record)| self.fit(number, Inode(record)))
    }

    fn fit(&self, number: usize, inode: Inode) -> bool {
        let (names, subdirectories) = (self.names[number], self.subdirectories[number]);
        let are_counted = match inode.kind() {
            FREE => true,
            DIRECTORY => inode.links() == 2 + subdirectories && names == u16::from(number != 0),
            _ => inode.links() == names && names != 0,
        };
        are_counted && inode.links() <= LINKS_MAX
    }
}

/// Rule 30, where rules 22 and 29 hold, by which every field leads to a directory. Each climb leaves its own mark, and
/// ends well at root or at the mark of one before it, so that no step is taken twice; its own mark is a ring.
fn every_directory_leads_to_root(image: &Image) -> bool {
    let mut marks = [0; INODES_MAX];
    marks[0] = u16::MAX;
    (1..image.inodes.len()).filter(|&start| image.inodes[start][0] == DIRECTORY).all(|start| {
        let (mut at, mark) = (start, start as u16);
        while marks[at] == 0 {
            marks[at] = mark;
            at = Inode(&image.inodes[at]).field().into();
        }
        marks[at] != mark
    })
}
