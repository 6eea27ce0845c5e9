//! An image built from the statements of a listing, each rule of a consistent image asked where a line could break it.

mod lines;

use std::collections::HashMap;

use super::attributes::Attributes;
use super::fault::{Fault, Given};
use super::numbers::Numbers;
use super::quoting::text;
use super::statement::{plural, InodeLine, Statement};
use crate::image::{kind, Entry, Handle, Image, Inode, Section};

const ROOT: &[u8] = b"/";

/// A path that has been listed: its inode, and the line.
struct Listed {
    inode: u16,
    line: usize,
}

struct Builder {
    /// The image so far, with as many records of each section as there can be.
    image: Image,
    listed: HashMap<Vec<u8>, Listed>,
    inodes: Numbers,
    slots: Numbers,
    texts: Numbers,
    handles: Numbers,
    /// The link counts that the listing gives, with the lines' paths.
    links: Vec<(Given<u16>, Vec<u8>)>,
}

/// Builds the image. Numbers that are given anywhere are taken before any line gets a free one.
pub fn build(statements: &[Statement]) -> Result<Image, Fault> {
    let mut builder = Builder::new(counts(statements)?);
    for statement in statements {
        builder.reserve(statement)?;
    }
    for statement in statements {
        builder.add(statement)?;
    }
    builder.finish()
}

/// The counts of records that the listing gives, by section.
fn counts(statements: &[Statement]) -> Result<[Option<usize>; 5], Fault> {
    let mut counts = [None; 5];
    for statement in statements {
        let Statement::Count(section, given) = statement else {
            continue;
        };
        if counts[*section as usize].replace(given.value).is_some() {
            return Err(given.place.fault(format!("there is a second line {}", plural(*section))));
        }
    }
    Ok(counts)
}

fn largest(section: Section) -> usize {
    section.counts().1
}

impl Builder {
    /// An image of a root alone.
    fn new(counts: [Option<usize>; 5]) -> Self {
        let numbers = |section: Section| Numbers::new(section, counts[section as usize]);
        let mut image = Image {
            inodes: vec![Inode::default(); largest(Section::Inodes)],
            entries: vec![Entry::default(); largest(Section::Entries)],
            texts: vec![Vec::new(); largest(Section::Texts)],
            handles: vec![Handle::default(); largest(Section::Handles)],
            ..Image::default()
        };
        image.inodes[0] = lines::new_inode(kind::DIRECTORY, &Attributes::default(), 0);
        let mut inodes = numbers(Section::Inodes);
        inodes.take_first();
        Builder {
            image,
            listed: HashMap::new(),
            inodes,
            slots: numbers(Section::Entries),
            texts: numbers(Section::Texts),
            handles: numbers(Section::Handles),
            links: Vec::new(),
        }
    }

    /// Takes the numbers that a line gives.
    fn reserve(&mut self, statement: &Statement) -> Result<(), Fault> {
        match statement {
            Statement::Inode(line) => {
                self.reserve_inode(line)?;
                reserve(&mut self.slots, line.attributes.slot)?;
                reserve(&mut self.texts, line.attributes.text)
            }
            Statement::Name(line) => reserve(&mut self.slots, line.slot),
            Statement::Handle(line) => self.handles.reserve(line.number),
            Statement::Count(..) | Statement::Clear => Ok(()),
        }
    }

    /// Number 0 is the root's already, whether it has a line or not.
    fn reserve_inode(&mut self, line: &InodeLine) -> Result<(), Fault> {
        let is_root = line.path.value == ROOT;
        match line.attributes.inode {
            Some(inode) if (inode.value == 0) != is_root => {
                Err(inode.place.fault("the root is inode 0, and nothing else is"))
            }
            inode => reserve(&mut self.inodes, inode.filter(|_| !is_root)),
        }
    }

    /// The image with its records counted, if the link counts are those that the listing gives.
    fn finish(mut self) -> Result<Image, Fault> {
        for (given, path) in &self.links {
            let links = self.image.inodes[usize::from(self.listed[path].inode)].links;
            if links != given.value {
                let path = text(path);
                return Err(given.place.fault(format!("by this listing {path} has a link count of {links}")));
            }
        }
        self.image.inodes.truncate(self.inodes.total());
        self.image.entries.truncate(self.slots.total());
        self.image.texts.truncate(self.texts.total());
        self.image.handles.truncate(self.handles.total());
        Ok(self.image)
    }
}

fn reserve(numbers: &mut Numbers, number: Option<Given<u16>>) -> Result<(), Fault> {
    number.map_or(Ok(()), |number| numbers.reserve(number))
}
