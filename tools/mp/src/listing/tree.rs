//! What a walk down from the root of an image meets, whether the image is consistent or not.

use super::quoting;
use crate::image::Image;

/// The root, or an entry that is reached from it and whose target is in use.
pub struct Found {
    /// None of the root.
    pub slot: Option<usize>,
    pub inode: usize,
    /// With the names' escapes, and without quotes.
    pub path: String,
    /// Whether the walk meets the inode here for the first time.
    pub first: bool,
}

/// All that is reached, depth first, the names of a directory in the order of their bytes.
pub struct Tree {
    pub found: Vec<Found>,
    /// For each inode, where in `found` it is met first.
    first: Vec<Option<usize>>,
}

impl Tree {
    pub fn of(image: &Image) -> Tree {
        let children = children(image);
        let mut tree = Tree { found: Vec::new(), first: vec![None; image.inodes.len()] };
        let mut waiting = Vec::new();
        if !image.inodes.is_empty() {
            waiting.push((None, 0, "/".to_owned()));
        }
        // Every inode is entered once, however many names lead to it, so a loop of directories ends.
        while let Some((slot, inode, path)) = waiting.pop() {
            let first = tree.first[inode].is_none();
            if first {
                tree.first[inode] = Some(tree.found.len());
            }
            if first && image.inodes[inode].is_directory() {
                waiting.extend(children[inode].iter().rev().map(|&slot| {
                    let entry = &image.entries[slot];
                    (Some(slot), usize::from(entry.target), join(&path, &entry.name))
                }));
            }
            tree.found.push(Found { slot, inode, path, first });
        }
        tree
    }

    /// The path at which an inode is met first.
    pub fn path(&self, inode: usize) -> Option<&str> {
        let at = (*self.first.get(inode)?)?;
        Some(&self.found[at].path)
    }
}

fn join(parent: &str, name: &[u8]) -> String {
    let parent = parent.strip_suffix('/').unwrap_or(parent);
    format!("{parent}/{}", quoting::name(name))
}

/// The slots in each inode whose targets are in use, in the order of their names.
fn children(image: &Image) -> Vec<Vec<usize>> {
    let mut children = vec![Vec::new(); image.inodes.len()];
    for (slot, entry) in image.used_entries() {
        let is_used = image.inode(entry.target).is_some_and(|target| target.is_used());
        if let Some(slots) = children.get_mut(usize::from(entry.parent)).filter(|_| is_used) {
            slots.push(slot);
        }
    }
    for slots in &mut children {
        slots.sort_by_key(|&slot| &image.entries[slot].name);
    }
    children
}
