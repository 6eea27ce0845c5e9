//! The lines of inodes and names, as rows of a table.

use super::super::quoting;
use super::super::table::Row;
use super::super::tree::{Found, Tree};
use crate::image::{kind, Image, Inode};

/// A row for the root and for each entry that is reached from it.
pub fn tree(image: &Image, tree: &Tree) -> Vec<Row> {
    tree.found.iter().map(|found| if found.first { inode_row(image, found) } else { name_row(tree, found) }).collect()
}

/// A row for each inode that the tree does not have, free ones that are not all zero included, and for each lost text.
pub fn lost(image: &Image, tree: &Tree) -> Vec<Row> {
    let inodes = image.inodes.iter().enumerate();
    let lost = inodes.filter(|&(number, inode)| tree.path(number).is_none() && *inode != Inode::default());
    let mut rows: Vec<Row> = lost.map(|(number, inode)| lost_row(image, number, inode)).collect();
    for number in lost_texts(image) {
        let numbers = Numbers { field: format!("text={number}"), ..Numbers::default() };
        rows.push(Row { cells: cells("lost text", None, numbers), tail: arrow(&image.texts[number]) });
    }
    rows
}

/// The texts in use that no symlink has.
fn lost_texts(image: &Image) -> Vec<usize> {
    let mut is_lost: Vec<bool> = image.texts.iter().map(|text| !text.is_empty()).collect();
    for symlink in image.inodes.iter().filter(|inode| inode.kind == kind::SYMLINK) {
        is_lost.get_mut(usize::from(symlink.field)).into_iter().for_each(|is_lost| *is_lost = false);
    }
    (0..is_lost.len()).filter(|&number| is_lost[number]).collect()
}

fn inode_row(image: &Image, found: &Found) -> Row {
    let inode = &image.inodes[found.inode];
    let parent = found.slot.map_or(0, |slot| image.entries[slot].parent);
    let numbers = Numbers { inode: Some(found.inode), slot: found.slot, field: field(inode, Some(parent)) };
    let path = quoting::path(&found.path);
    let tail = match inode.kind {
        kind::SYMLINK => format!("{path} {}", arrow(text(image, inode))),
        _ => path,
    };
    Row { cells: cells(&word(inode.kind), Some(inode), numbers), tail }
}

/// A further name of what has a row already.
fn name_row(tree: &Tree, found: &Found) -> Row {
    let numbers = Numbers { slot: found.slot, ..Numbers::default() };
    let existing = tree.path(found.inode).map_or(String::new(), quoting::path);
    Row { cells: cells("name", None, numbers), tail: format!("{} = {existing}", quoting::path(&found.path)) }
}

fn lost_row(image: &Image, number: usize, inode: &Inode) -> Row {
    let numbers = Numbers { inode: Some(number), slot: None, field: field(inode, None) };
    let tail = if inode.kind == kind::SYMLINK { arrow(text(image, inode)) } else { String::new() };
    Row { cells: cells(&format!("lost {}", word(inode.kind)), Some(inode), numbers), tail }
}

fn word(kind: u8) -> String {
    match kind {
        kind::FREE => "free".to_owned(),
        kind::FILE => "file".to_owned(),
        kind::DIRECTORY => "dir".to_owned(),
        kind::SYMLINK => "link".to_owned(),
        _ => format!("type{kind}"),
    }
}

/// The last columns of a row: the numbers of its records. The field has its attribute's name with it.
#[derive(Default)]
struct Numbers {
    inode: Option<usize>,
    slot: Option<usize>,
    field: String,
}

fn cells(word: &str, inode: Option<&Inode>, numbers: Numbers) -> Vec<String> {
    let attribute = |key: &str, number: Option<usize>| number.map_or(String::new(), |number| format!("{key}={number}"));
    let mut cells = vec![word.to_owned()];
    cells.extend(inode.map_or_else(Default::default, attributes));
    cells.extend([attribute("inode", numbers.inode), attribute("slot", numbers.slot), numbers.field]);
    cells
}

fn attributes(inode: &Inode) -> [String; 6] {
    [
        format!("mode={:04o}", inode.mode),
        format!("owner={}:{}", inode.owner, inode.group),
        format!("fs={}", inode.system),
        format!("links={}", inode.links),
        format!("modified={}", inode.modified),
        format!("changed={}", inode.changed),
    ]
}

/// The field: a symlink's text always, a directory's parent and anything else's where it is not what it should be.
fn field(inode: &Inode, parent: Option<u16>) -> String {
    match inode.kind {
        kind::SYMLINK => format!("text={}", inode.field),
        kind::DIRECTORY if parent == Some(inode.field) => String::new(),
        kind::DIRECTORY => format!("parent={}", inode.field),
        _ if inode.field == 0 => String::new(),
        _ => format!("field={}", inode.field),
    }
}

/// The text of a symlink; empty where there is none.
fn text<'a>(image: &'a Image, inode: &Inode) -> &'a [u8] {
    image.texts.get(usize::from(inode.field)).map_or(&[], Vec::as_slice)
}

fn arrow(text: &[u8]) -> String {
    format!("-> {}", quoting::text(text))
}
