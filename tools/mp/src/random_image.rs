//! Random consistent images: trees of every kind of inode, their records in any order and with free ones between them.

mod grow;
mod values;

#[cfg(test)]
mod tests;

use std::ops::Range;

use crate::image::{kind, Entry, Handle, Image, Inode, Section};
use crate::random::Random;
use grow::Wanted;

/// How large an image is.
#[derive(Clone, Copy, Debug, PartialEq, Eq)]
pub enum Size {
    /// Up to 30 inodes in use, and up to three free records of each section.
    Small,
    /// As many records as there can be: 512 inodes, 1,024 entries, 64 texts and 16 handles. A few may be free.
    Full,
}

/// A random consistent image.
pub fn image(random: &mut Random, size: Size) -> Image {
    let wanted = wanted(random, size);
    let compact = grow::image(random, &wanted);
    let spare = |random: &mut Random, section: Section, used: usize| match size {
        Size::Small => used + random.below(4),
        Size::Full => section.counts().1,
    };
    let inodes = spare(random, Section::Inodes, compact.inodes.len());
    let entries = spare(random, Section::Entries, compact.entries.len());
    let texts = spare(random, Section::Texts, compact.texts.len());
    // The root stays inode 0, and everything else gets any number.
    let numbers = Numbers {
        inodes: [vec![0], shuffled(random, 1..inodes)].concat(),
        entries: shuffled(random, 0..entries),
        texts: shuffled(random, 0..texts),
    };
    renumbered(&compact, &numbers)
}

/// How many records are to be in use.
fn wanted(random: &mut Random, size: Size) -> Wanted {
    match size {
        Size::Small => {
            // The most is random itself, since much can happen in very small images already.
            let most = 1 + random.below(30);
            let inodes = 1 + random.below(most);
            let entries = inodes - 1 + random.below(1 + inodes / 2);
            Wanted { inodes, entries, texts: inodes, handles: random.below(5) }
        }
        Size::Full => {
            let mut nearly = |section: Section| section.counts().1 - random.below(3);
            let (inodes, entries, texts) = (nearly(Section::Inodes), nearly(Section::Entries), nearly(Section::Texts));
            Wanted { inodes, entries, texts, handles: Section::Handles.counts().1 }
        }
    }
}

/// New numbers of records, by their old ones. There are more of them than there are records, where some are to be free.
struct Numbers {
    inodes: Vec<u16>,
    entries: Vec<u16>,
    texts: Vec<u16>,
}

fn shuffled(random: &mut Random, range: Range<usize>) -> Vec<u16> {
    let mut numbers: Vec<u16> = range.map(|number| number as u16).collect();
    for last in (1..numbers.len()).rev() {
        numbers.swap(last, random.below(last + 1));
    }
    numbers
}

/// The image with every record at its new number.
fn renumbered(image: &Image, numbers: &Numbers) -> Image {
    let inode_number = |old: u16| numbers.inodes[usize::from(old)];
    let mut new = Image {
        inodes: vec![Inode::default(); numbers.inodes.len()],
        entries: vec![Entry::default(); numbers.entries.len()],
        texts: vec![Vec::new(); numbers.texts.len()],
        ..Image::default()
    };
    for (inode, &number) in image.inodes.iter().zip(&numbers.inodes) {
        let field = match inode.kind {
            kind::DIRECTORY => inode_number(inode.field),
            kind::SYMLINK => numbers.texts[usize::from(inode.field)],
            _ => 0,
        };
        new.inodes[usize::from(number)] = Inode { field, ..*inode };
    }
    for (Entry { parent, target, name }, &slot) in image.entries.iter().zip(&numbers.entries) {
        new.entries[usize::from(slot)] =
            Entry { parent: inode_number(*parent), target: inode_number(*target), name: name.clone() };
    }
    for (text, &number) in image.texts.iter().zip(&numbers.texts) {
        new.texts[usize::from(number)].clone_from(text);
    }
    let moved = |handle: &Handle| Handle { inode: inode_number(handle.inode), ..*handle };
    new.handles = image.handles.iter().map(|handle| if handle.is_open() { moved(handle) } else { *handle }).collect();
    new
}
