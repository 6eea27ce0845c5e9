//! Link counts that are one too high or one too low, at root, at the inode behind it and at the last one.

use super::Table;
use crate::model::image::DIRECTORY;

const DIRECTORY_COUNT: &[u8] = &[31];
const OTHER_COUNT: &[u8] = &[32];

pub fn all(table: &mut Table) {
    let last = table.subject.tree.inodes.len() - 1;
    for inode in [0, 1, last] {
        let is_directory = table.subject.tree.inodes[inode].kind == DIRECTORY;
        let told = if is_directory { DIRECTORY_COUNT } else { OTHER_COUNT };
        table.add("link counts", told, |tree| tree.inodes[inode].links += 1);
        table.add("link counts", told, |tree| tree.inodes[inode].links -= 1);
    }
}
