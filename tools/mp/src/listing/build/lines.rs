//! What each line adds to the image.

use super::super::attributes::{Attributes, MOST_LINKS};
use super::super::fault::{Fault, Given, Place};
use super::super::numbers::Numbers;
use super::super::quoting::text;
use super::super::statement::{HandleLine, InodeLine, NameLine, Statement};
use super::{Builder, Listed, ROOT};
use crate::image::{kind, Entry, Handle, Inode};

const LONGEST_NAME: usize = 24;

/// An inode of no entries, with defaults for what its line leaves out.
pub fn new_inode(kind: u8, attributes: &Attributes, system: u8) -> Inode {
    let mode = match kind {
        kind::DIRECTORY => 0o755,
        kind::FILE => 0o644,
        _ => 0o777,
    };
    let (owner, group) = attributes.owner.map_or((0, 0), |given| given.value);
    Inode {
        kind,
        system: attributes.system.map_or(system, |given| given.value),
        mode: attributes.mode.map_or(mode, |given| given.value),
        owner,
        group,
        links: if kind == kind::DIRECTORY { 2 } else { 0 },
        field: 0,
        modified: attributes.modified.map_or(0, |given| given.value),
        changed: attributes.changed.map_or(0, |given| given.value),
    }
}

impl Builder {
    pub fn add(&mut self, statement: &Statement) -> Result<(), Fault> {
        match statement {
            Statement::Inode(line) if line.path.value == ROOT => self.add_root(line),
            Statement::Inode(line) => self.add_inode(line),
            Statement::Name(line) => self.add_name(line),
            Statement::Handle(line) => self.add_handle(line),
            Statement::Count(..) | Statement::Clear => Ok(()),
        }
    }

    fn add_root(&mut self, line: &InodeLine) -> Result<(), Fault> {
        if line.kind != kind::DIRECTORY {
            return Err(line.path.place.fault("the root / is a directory"));
        }
        if let Some(slot) = line.attributes.slot {
            return Err(slot.place.fault("the root is in no directory, and has no slot"));
        }
        if !self.listed.is_empty() {
            return Err(line.path.place.fault("the root / is listed once, and before all else"));
        }
        self.image.inodes[0] = new_inode(kind::DIRECTORY, &line.attributes, 0);
        self.list(&line.path, 0, line.attributes.links);
        Ok(())
    }

    fn add_inode(&mut self, line: &InodeLine) -> Result<(), Fault> {
        let (parent, name) = self.free_place(&line.path)?;
        let parent_system = self.inode(parent).system;
        let mut inode = new_inode(line.kind, &line.attributes, parent_system);
        if let Some(given) = line.attributes.system.filter(|_| !inode.is_directory() && inode.system != parent_system) {
            return Err(given.place.fault("only a directory can be on another file system than its parent"));
        }
        inode.field = match line.kind {
            kind::DIRECTORY => parent,
            kind::SYMLINK => self.add_text(line)?,
            _ => 0,
        };
        let number = given_or_lowest(line.attributes.inode, &mut self.inodes, line.place)?;
        self.image.inodes[usize::from(number)] = inode;
        self.add_entry(&line.path, line.attributes.slot, Entry { parent, target: number, name })?;
        self.list(&line.path, number, line.attributes.links);
        Ok(())
    }

    fn add_text(&mut self, line: &InodeLine) -> Result<u16, Fault> {
        let number = given_or_lowest(line.attributes.text, &mut self.texts, line.place)?;
        self.image.texts[usize::from(number)] = line.text.clone();
        Ok(number)
    }

    fn add_name(&mut self, line: &NameLine) -> Result<(), Fault> {
        let (parent, name) = self.free_place(&line.path)?;
        let existing = &line.existing;
        let Some(target) = self.find(&existing.value) else {
            let shown = text(&existing.value);
            return Err(existing.place.fault(format!("there is no {shown}; list it before its further names")));
        };
        let inode = self.inode(target);
        if inode.is_directory() {
            return Err(existing.place.fault(format!("{} is a directory, which has one name", text(&existing.value))));
        }
        if inode.system != self.inode(parent).system {
            return Err(line.path.place.fault("all names of a file or symlink are on one file system"));
        }
        self.add_entry(&line.path, line.slot, Entry { parent, target, name })?;
        self.list(&line.path, target, None);
        Ok(())
    }

    fn add_handle(&mut self, line: &HandleLine) -> Result<(), Fault> {
        let Some(path) = &line.path else {
            return Ok(());
        };
        let Some(inode) = self.find(&path.value) else {
            return Err(path.place.fault(format!("there is no {}; list it before its handle", text(&path.value))));
        };
        self.image.handles[usize::from(line.number.value)] = Handle { state: line.state, inode };
        Ok(())
    }

    /// Stores an entry and counts the link: a directory is one of its parent's, anything else one of its own.
    fn add_entry(&mut self, path: &Given<Vec<u8>>, slot: Option<Given<u16>>, entry: Entry) -> Result<(), Fault> {
        let is_directory = self.inode(entry.target).is_directory();
        let counted = if is_directory { entry.parent } else { entry.target };
        let links = &mut self.image.inodes[usize::from(counted)].links;
        if *links == MOST_LINKS {
            let what = if is_directory { "child directory" } else { "name" };
            return Err(path
                .place
                .fault(format!("this is one {what} too many; an inode has at most {MOST_LINKS} links")));
        }
        *links += 1;
        let slot = given_or_lowest(slot, &mut self.slots, path.place)?;
        self.image.entries[usize::from(slot)] = entry;
        Ok(())
    }

    fn list(&mut self, path: &Given<Vec<u8>>, inode: u16, links: Option<Given<u16>>) {
        self.listed.insert(path.value.clone(), Listed { inode, line: path.place.line });
        self.links.extend(links.map(|links| (links, path.value.clone())));
    }

    fn inode(&self, number: u16) -> &Inode {
        &self.image.inodes[usize::from(number)]
    }

    /// The inode of a path. The root is there whether it is listed or not.
    fn find(&self, path: &[u8]) -> Option<u16> {
        match path == ROOT {
            true => Some(0),
            false => self.listed.get(path).map(|listed| listed.inode),
        }
    }

    /// The directory and the name of a path that can be listed.
    fn free_place(&self, path: &Given<Vec<u8>>) -> Result<(u16, Vec<u8>), Fault> {
        let (place, shown) = (path.place, text(&path.value));
        if let Some(wrong) = wrong_path(&path.value) {
            return Err(place.fault(format!("the path {shown} {wrong}")));
        }
        if let Some(listed) = self.listed.get(&path.value) {
            return Err(place.fault(format!("{shown} is listed already, in line {}", listed.line)));
        }
        let slash = last_slash(&path.value);
        let (before, name) = (&path.value[..slash.max(1)], &path.value[slash + 1..]);
        match self.find(before) {
            None => Err(place.fault(format!("there is no directory {}; list it before what is in it", text(before)))),
            Some(parent) if self.inode(parent).is_directory() => Ok((parent, name.to_vec())),
            Some(_) => Err(place.fault(format!("{} is no directory", text(before)))),
        }
    }
}

fn given_or_lowest(given: Option<Given<u16>>, numbers: &mut Numbers, place: Place) -> Result<u16, Fault> {
    given.map_or_else(|| numbers.lowest(place), |given| Ok(given.value))
}

/// Where the last name of a path begins, less one.
fn last_slash(path: &[u8]) -> usize {
    path.iter().rposition(|&byte| byte == b'/').unwrap_or(0)
}

/// What is wrong with the form of a path other than the root's, if anything is. One form only: paths are compared by bytes.
fn wrong_path(path: &[u8]) -> Option<String> {
    if path == ROOT {
        return Some("is the root, which is a directory and in none".to_owned());
    }
    if !path.starts_with(ROOT) {
        return Some("does not begin with /".to_owned());
    }
    if path.ends_with(b"/") || path.windows(2).any(|pair| pair == b"//") {
        return Some("has an empty name; one slash stands in front of each name and none at the end".to_owned());
    }
    match &path[last_slash(path) + 1..] {
        b"." | b".." => Some("ends in . or .., which is no name".to_owned()),
        name if name.len() > LONGEST_NAME => {
            Some(format!("has a last name of {} bytes; {LONGEST_NAME} are the most", name.len()))
        }
        _ => None,
    }
}
