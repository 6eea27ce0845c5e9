//! The walk of one path (rules 44 to 61): the path is read in place, and copied only where a symlink's text joins it.

use super::image::Image;
use crate::model::image::{Handle, Inode, Text, NAME_MAX, OPENED_FOR_SEARCH, SYMLINK};
use crate::model::numbers::{EACCES, EBADF, EBUSY, EINVAL, ELOOP, ENAMETOOLONG, ENOENT, ENOTDIR, EPERM};
use crate::model::permission::{may_search, Credentials};
use crate::model::request::{Operand, Request, CURRENT};
use crate::model::walk::{is_portable, Existing, Role, FOLLOWED_MAX, PATH_MAX};
use std::borrow::Cow;

/// A name as an entry has it: its length, and zeros behind it.
pub struct Name {
    pub len: u8,
    pub room: [u8; NAME_MAX],
}

/// Where a walk ended.
pub struct Found {
    pub directory: u16,
    pub name: Name,
    pub existing: Option<Existing>,
    /// Whether the path ends in a slash.
    pub slash: bool,
}

struct Walker<'a> {
    image: &'a Image<'a>,
    who: &'a Credentials,
    path: Cow<'a, [u8]>,
    /// Where the next component is looked for: in the path, and among the inodes.
    at: usize,
    directory: u16,
    /// True ahead of the first component if the start is a handle opened for search.
    search_granted: bool,
    followed: usize,
}

fn is_slash(byte: &u8) -> bool {
    *byte == b'/'
}

/// One walk of a consistent image: where it ends, or the number that refuses it. The component checks begun are counted
/// in `steps` (rule 61).
pub fn walk(image: &Image, request: &Request, role: Role, steps: &mut u16) -> Result<Found, u8> {
    let operand = match role {
        Role::Old => &request.old,
        Role::New => &request.new,
    };
    let mut walker = Walker::start(image, request, operand)?;
    loop {
        *steps += 1;
        let name = walker.next_name()?;
        let after = &walker.path[walker.at..];
        if after.iter().all(is_slash) {
            let slash = !after.is_empty();
            return walker.finish(role, name, slash);
        }
        walker.pass(&name)?;
    }
}

/// Rule 45.
fn look_up(image: &Image, directory: u16, name: &Name) -> Option<Existing> {
    let parent = directory.to_le_bytes();
    let is_it = |record: &[u8; 32]| record[..2] == parent && record[4] == name.len && record[8..] == name.room;
    let slot = image.entries.iter().position(is_it)?;
    let inode = u16::from_le_bytes([image.entries[slot][2], image.entries[slot][3]]);
    Some(Existing { slot: slot as u16, inode })
}

impl Name {
    fn new(bytes: &[u8]) -> Name {
        let mut room = [0; NAME_MAX];
        room[..bytes.len()].copy_from_slice(bytes);
        Name { len: bytes.len() as u8, room }
    }

    pub fn bytes(&self) -> &[u8] {
        &self.room[..self.len.into()]
    }
}

impl<'a> Walker<'a> {
    /// Rules 46 to 49.
    fn start(image: &'a Image<'a>, request: &'a Request, operand: &'a Operand) -> Result<Walker<'a>, u8> {
        let path = &operand.path;
        if path.is_empty() {
            return Err(ENOENT);
        }
        if path.len() > PATH_MAX {
            return Err(ENAMETOOLONG);
        }
        let (directory, search_granted) = start_of(image, request, operand)?;
        if path.iter().all(is_slash) {
            return Err(EBUSY);
        }
        let path = Cow::Borrowed(&path[..]);
        Ok(Walker { image, who: &request.who, path, at: 0, directory, search_granted, followed: 0 })
    }

    /// Rules 50 to 52; what follows the component is left to read.
    fn next_name(&mut self) -> Result<Name, u8> {
        let rest = &self.path[self.at..];
        let start = rest.iter().position(|byte| !is_slash(byte)).unwrap_or(rest.len());
        let len = rest[start..].iter().position(is_slash).unwrap_or(rest.len() - start);
        let granted = std::mem::replace(&mut self.search_granted, false);
        if !self.image.is_directory(self.directory) {
            return Err(ENOTDIR);
        }
        if !granted && !may_search(self.who, self.inode()) {
            return Err(EACCES);
        }
        if len > NAME_MAX {
            return Err(ENAMETOOLONG);
        }
        let name = Name::new(&rest[start..start + len]);
        self.at += start + len;
        Ok(name)
    }

    fn inode(&self) -> Inode<'a> {
        Inode(&self.image.inodes[usize::from(self.directory)])
    }

    /// Rules 53, 53a and 58 to 60.
    fn finish(self, role: Role, name: Name, slash: bool) -> Result<Found, u8> {
        if matches!(name.bytes(), b"." | b"..") {
            return Err(EINVAL);
        }
        if role == Role::New && !name.bytes().iter().all(is_portable) {
            return Err(EPERM);
        }
        let existing = look_up(self.image, self.directory, &name);
        match existing {
            None if role == Role::Old => Err(ENOENT),
            Some(Existing { inode, .. }) if slash && !self.image.is_directory(inode) => Err(ENOTDIR),
            _ => Ok(Found { directory: self.directory, name, existing, slash }),
        }
    }

    /// Rules 53 and 54, of a component that is not final.
    fn pass(&mut self, name: &Name) -> Result<(), u8> {
        let number = match name.bytes() {
            b"." => self.directory,
            b".." => self.inode().field(),
            _ => look_up(self.image, self.directory, name).ok_or(ENOENT)?.inode,
        };
        let inode = Inode(&self.image.inodes[usize::from(number)]);
        if inode.kind() == SYMLINK {
            return self.follow(Text(&self.image.texts[usize::from(inode.field())]).bytes());
        }
        self.directory = number;
        Ok(())
    }

    /// Rules 55 to 57.
    fn follow(&mut self, text: &[u8]) -> Result<(), u8> {
        self.followed += 1;
        if self.followed > FOLLOWED_MAX {
            return Err(ELOOP);
        }
        let after = &self.path[self.at..];
        if text.len() + after.len() > PATH_MAX {
            return Err(ENAMETOOLONG);
        }
        if is_slash(&text[0]) {
            self.directory = 0;
        }
        self.path = Cow::Owned([text, after].concat());
        self.at = 0;
        Ok(())
    }
}

/// Rules 41 and 48: where a path begins, and whether it may be searched unasked.
fn start_of(image: &Image, request: &Request, operand: &Operand) -> Result<(u16, bool), u8> {
    if is_slash(&operand.path[0]) {
        return Ok((0, false));
    }
    if operand.start == CURRENT {
        return Ok((request.current, false));
    }
    let handle = image.handles.get(usize::from(operand.start)).map(|record| Handle(record));
    let handle = handle.filter(|handle| handle.is_open()).ok_or(EBADF)?;
    Ok((handle.inode(), handle.state() == OPENED_FOR_SEARCH))
}
