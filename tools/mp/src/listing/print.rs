//! An image printed as a listing. Any image can be printed; only a consistent one can be read back.

mod journal;
mod rows;

use super::quoting;
use super::statement::{plural, STATES};
use super::table::table;
use super::tree::{Found, Tree};
use crate::image::{Entry, Handle, Image, Section};

/// The listing of an image: its tree, what is not in the tree, its handles, how many records there are, and its journal.
pub fn print(image: &Image) -> String {
    let tree = Tree::of(image);
    let mut out = summary(image);
    out += &table(&rows::tree(image, &tree));
    out += &table(&rows::lost(image, &tree));
    strays(image, &tree).for_each(|line| out += &line);
    let handles = image.handles.iter().enumerate().filter(|(_, handle)| **handle != Handle::default());
    handles.for_each(|(number, handle)| out += &handle_line(&tree, number, handle));
    for (section, [_, count]) in counts(image) {
        out += &format!("{} {count}\n", plural(section));
    }
    out + &journal::line(&image.journal)
}

/// How many records of each section are in use, and how many there are.
fn counts(image: &Image) -> [(Section, [usize; 2]); 4] {
    let inodes = image.inodes.iter().filter(|inode| inode.is_used()).count();
    let texts = image.texts.iter().filter(|text| !text.is_empty()).count();
    let handles = image.handles.iter().filter(|handle| handle.is_open()).count();
    [
        (Section::Inodes, [inodes, image.inodes.len()]),
        (Section::Entries, [image.used_entries().count(), image.entries.len()]),
        (Section::Texts, [texts, image.texts.len()]),
        (Section::Handles, [handles, image.handles.len()]),
    ]
}

fn summary(image: &Image) -> String {
    let [inodes, entries, texts, handles] =
        counts(image).map(|(section, [used, all])| format!("{used} of {all} {}", plural(section)));
    format!("# {} bytes: {inodes}, {entries}, {texts} and {handles} are in use\n", image.write().len())
}

/// The entries that are not in the tree, or are free and not all zero.
fn strays<'a>(image: &'a Image, tree: &Tree) -> impl Iterator<Item = String> + 'a {
    let mut is_found = vec![false; image.entries.len()];
    tree.found.iter().filter_map(|Found { slot, .. }| *slot).for_each(|slot| is_found[slot] = true);
    let entries = image.entries.iter().enumerate();
    let strays = entries.filter(move |&(slot, entry)| !is_found[slot] && *entry != Entry::default());
    strays.map(|(slot, entry)| {
        let Entry { parent, target, name } = entry;
        format!("stray slot={slot} parent={parent} target={target} name={}\n", quoting::text(name))
    })
}

/// A handle's line, if it is not all zero.
fn handle_line(tree: &Tree, number: usize, handle: &Handle) -> String {
    let state =
        STATES.get(usize::from(handle.state)).map_or(format!("state={}", handle.state), |word| (*word).to_owned());
    match tree.path(usize::from(handle.inode)).filter(|_| handle.is_open()) {
        Some(path) => format!("handle {number} {state} {}\n", quoting::path(path)),
        None => format!("handle {number} {state} inode={}\n", handle.inode),
    }
}
