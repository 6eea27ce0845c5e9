//! The walks of a request's two paths, from the directory each starts in to its final name (rules 44 to 61).

use super::image::{Image, NAME_MAX, OPENED_FOR_SEARCH, SYMLINK};
use super::numbers::{DONE, EACCES, EBADF, EBUSY, EINVAL, ELOOP, ENAMETOOLONG, ENOENT, ENOTDIR, EPERM};
use super::permission::{may_search, Credentials};
use super::refusal::{Refusal, Rule};
use super::request::{Operand, Request, CURRENT};

pub const PATH_MAX: usize = 255;

/// Symlinks that one path may lead through.
pub const FOLLOWED_MAX: usize = 40;

/// What a walk is refused for, in the order in which it is asked: of the path, of each component, of a name that is
/// passed through, and of the final one.
const EMPTY: Refusal = Refusal::new(46, "empty path", ENOENT);
const LONG_PATH: Refusal = Refusal::new(47, "long path", ENAMETOOLONG);
const NO_HANDLE: Refusal = Refusal::new(48, "no open handle", EBADF);
const SLASHES: Refusal = Refusal::new(49, "slashes only", EBUSY);
const NO_DIRECTORY: Refusal = Refusal::new(50, "component in no directory", ENOTDIR);
const NO_SEARCH: Refusal = Refusal::new(51, "search denied", EACCES);
const LONG_NAME: Refusal = Refusal::new(52, "long component", ENAMETOOLONG);
const FINAL_DOT: Refusal = Refusal::new(53, "final dot", EINVAL);
const UNPORTABLE: Refusal = Refusal { rule: Rule::behind(53, 'a'), clause: "unportable final name", number: EPERM };
const MISSING: Refusal = Refusal::new(54, "missing before the final one", ENOENT);
const TOO_MANY_SYMLINKS: Refusal = Refusal::new(56, "too many symlinks", ELOOP);
const LONG_JOIN: Refusal = Refusal::new(57, "long joined path", ENAMETOOLONG);
const FINAL_MISSING: Refusal = Refusal::new(59, "final one missing", ENOENT);
const SLASH_BEHIND: Refusal = Refusal::new(60, "slash behind no directory", ENOTDIR);

/// Every one of them.
pub const REFUSALS: [Refusal; 14] = [
    EMPTY,
    LONG_PATH,
    NO_HANDLE,
    SLASHES,
    NO_DIRECTORY,
    NO_SEARCH,
    LONG_NAME,
    FINAL_DOT,
    UNPORTABLE,
    MISSING,
    TOO_MANY_SYMLINKS,
    LONG_JOIN,
    FINAL_MISSING,
    SLASH_BEHIND,
];

/// The two paths differ in two points: new's final name may be missing, and has to be portable.
#[derive(Clone, Copy, Debug, PartialEq, Eq)]
pub enum Role {
    Old,
    New,
}

/// An entry that exists.
#[derive(Clone, Copy, Debug, PartialEq, Eq)]
pub struct Existing {
    pub slot: u16,
    pub inode: u16,
}

/// Where a walk ended.
#[derive(Clone, Debug, PartialEq, Eq)]
pub struct Found {
    pub directory: u16,
    pub name: Vec<u8>,
    pub existing: Option<Existing>,
    /// Whether the path ends in a slash.
    pub slash: bool,
}

/// A walk's end or refusal, the component checks begun by then (rule 61), and the symlinks met before the final name (rule 55),
/// the one that was too many among them.
#[derive(Clone, Debug, PartialEq, Eq)]
pub struct Walk {
    pub steps: u16,
    pub followed: usize,
    pub end: Result<Found, Refusal>,
}

/// Both walks of a request: new's is taken only after a whole one of old.
#[derive(Clone, Debug, PartialEq, Eq)]
pub struct Walks {
    pub number: u8,
    pub steps: [u16; 2],
    /// Old's and new's, where neither is refused.
    pub found: Option<[Found; 2]>,
}

pub fn walk_both(image: &Image, request: &Request) -> Walks {
    let refused = |refusal: Refusal, steps| Walks { number: refusal.number, steps, found: None };
    if let Some(refusal) = request.refusal(image) {
        return refused(refusal, [0, 0]);
    }
    let old = walk(image, request, Role::Old);
    let first = match old.end {
        Ok(found) => found,
        Err(refusal) => return refused(refusal, [old.steps, 0]),
    };
    let new = walk(image, request, Role::New);
    let steps = [old.steps, new.steps];
    match new.end {
        Ok(second) => Walks { number: DONE, steps, found: Some([first, second]) },
        Err(refusal) => refused(refusal, steps),
    }
}

/// One walk of a consistent image.
pub fn walk(image: &Image, request: &Request, role: Role) -> Walk {
    let operand = match role {
        Role::Old => &request.old,
        Role::New => &request.new,
    };
    match Walker::start(image, request, operand) {
        Ok(mut walker) => {
            let end = walker.run(role);
            Walk { steps: walker.steps, followed: walker.followed, end }
        }
        Err(refusal) => Walk { steps: 0, followed: 0, end: Err(refusal) },
    }
}

struct Walker<'a> {
    image: &'a Image<'a>,
    who: &'a Credentials,
    /// What is still to be read, which always has a component.
    rest: Vec<u8>,
    /// The inode in which the next component is looked for. It need not be a directory.
    directory: u16,
    /// True ahead of the first component if the start is a handle opened for search.
    search_granted: bool,
    followed: usize,
    steps: u16,
}

fn is_slash(byte: &u8) -> bool {
    *byte == b'/'
}

/// Rule 53a: the bytes that new's final name may hold. Letters of any other alphabet are not among them.
pub fn is_portable(byte: &u8) -> bool {
    matches!(byte, b'A'..=b'Z' | b'a'..=b'z' | b'0'..=b'9' | b'.' | b'_' | b'-')
}

impl<'a> Walker<'a> {
    /// Rules 46 to 49, before any component is looked at.
    fn start(image: &'a Image<'a>, request: &'a Request, operand: &Operand) -> Result<Walker<'a>, Refusal> {
        let path = &operand.path;
        if path.is_empty() {
            return Err(EMPTY);
        }
        if path.len() > PATH_MAX {
            return Err(LONG_PATH);
        }
        let (directory, search_granted) = start_of(image, request, operand)?;
        if path.iter().all(is_slash) {
            return Err(SLASHES);
        }
        Ok(Walker { image, who: &request.who, rest: path.clone(), directory, search_granted, followed: 0, steps: 0 })
    }

    fn run(&mut self, role: Role) -> Result<Found, Refusal> {
        loop {
            let (name, after) = self.next_component();
            self.may_look_up(&name)?;
            if after.iter().all(is_slash) {
                return self.finish(role, name, !after.is_empty());
            }
            self.pass(&name, after)?;
        }
    }

    /// Rule 44: the next component, and what follows it, which is nothing or begins with a slash.
    fn next_component(&self) -> (Vec<u8>, Vec<u8>) {
        let start = self.rest.iter().take_while(|byte| is_slash(byte)).count();
        let name = self.rest[start..].split(is_slash).next().unwrap_or(&[]);
        (name.to_vec(), self.rest[start + name.len()..].to_vec())
    }

    /// Rules 50 to 52, asked of every component, dots too. Here is where they are counted (rule 61).
    fn may_look_up(&mut self, name: &[u8]) -> Result<(), Refusal> {
        self.steps += 1;
        let granted = std::mem::replace(&mut self.search_granted, false);
        let inode = self.image.inode(self.directory).filter(|_| self.image.is_directory(self.directory));
        let inode = inode.ok_or(NO_DIRECTORY)?;
        if !granted && !may_search(self.who, inode) {
            return Err(NO_SEARCH);
        }
        if name.len() > NAME_MAX {
            return Err(LONG_NAME);
        }
        Ok(())
    }

    /// Rule 45.
    fn look_up(&self, name: &[u8]) -> Option<Existing> {
        let slots = (0..).zip(self.image.entries());
        let mut named = slots.filter(|(_, entry)| entry.parent() == self.directory && entry.name() == name);
        named.next().map(|(slot, entry)| Existing { slot, inode: entry.target() })
    }

    /// Rules 53, 53a, 59 and 60; and rule 58, since a final symlink is like any other name here. Whether a name is
    /// portable is asked ahead of the lookup, so that it does not matter whether new exists.
    fn finish(&self, role: Role, name: Vec<u8>, slash: bool) -> Result<Found, Refusal> {
        if name == b"." || name == b".." {
            return Err(FINAL_DOT);
        }
        if role == Role::New && !name.iter().all(is_portable) {
            return Err(UNPORTABLE);
        }
        let existing = self.look_up(&name);
        match existing {
            None if role == Role::Old => Err(FINAL_MISSING),
            Some(Existing { inode, .. }) if slash && !self.image.is_directory(inode) => Err(SLASH_BEHIND),
            _ => Ok(Found { directory: self.directory, name, existing, slash }),
        }
    }

    /// Goes on to what a component before the final one stands for: rules 53 and 54.
    fn pass(&mut self, name: &[u8], after: Vec<u8>) -> Result<(), Refusal> {
        let inode = match name {
            b"." => self.directory,
            b".." => self.image.inode(self.directory).map_or(0, |inode| inode.field()),
            _ => self.look_up(name).ok_or(MISSING)?.inode,
        };
        match self.text_of(inode) {
            Some(text) => self.follow(text, &after),
            None => {
                self.directory = inode;
                self.rest = after;
                Ok(())
            }
        }
    }

    fn text_of(&self, inode: u16) -> Option<&'a [u8]> {
        let symlink = self.image.inode(inode).filter(|inode| inode.kind() == SYMLINK)?;
        self.image.text(symlink.field()).map(|text| text.bytes())
    }

    /// Rules 55 to 57: a symlink's text takes the place of its name. A relative one goes on in the name's directory.
    fn follow(&mut self, text: &[u8], after: &[u8]) -> Result<(), Refusal> {
        self.followed += 1;
        if self.followed > FOLLOWED_MAX {
            return Err(TOO_MANY_SYMLINKS);
        }
        if text.len() + after.len() > PATH_MAX {
            return Err(LONG_JOIN);
        }
        if text.first().is_some_and(is_slash) {
            self.directory = 0;
        }
        self.rest = [text, after].concat();
        Ok(())
    }
}

/// Rules 41 and 48: where a path begins, and whether it may be searched unasked.
fn start_of(image: &Image, request: &Request, operand: &Operand) -> Result<(u16, bool), Refusal> {
    if operand.path.first().is_some_and(is_slash) {
        return Ok((0, false));
    }
    if operand.start == CURRENT {
        return Ok((request.current, false));
    }
    let handle = image.handle(operand.start).filter(|handle| handle.is_open()).ok_or(NO_HANDLE)?;
    Ok((handle.inode(), handle.state() == OPENED_FOR_SEARCH))
}
