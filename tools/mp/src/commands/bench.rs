//! The bench tree, which needs no file, and a rename on it.

use crate::listing;
use crate::request::Asked;
use mirepillar::CURRENT_DIRECTORY;

/// The tree as people read it.
pub const LISTING: &[u8] = include_bytes!("../../data/bench.listing");

/// Its image, of 624 bytes.
pub fn image() -> Result<Vec<u8>, String> {
    listing::parse(LISTING).map(|image| image.write()).map_err(|fault| format!("the bench tree's listing, {fault}"))
}

/// The third rename of the bench: a file takes the place of another.
pub fn third() -> Asked {
    Asked {
        user: 100,
        group: 100,
        groups: Vec::new(),
        cwd: 0,
        old_start: CURRENT_DIRECTORY,
        new_start: CURRENT_DIRECTORY,
        now: 500,
        flags: 0,
        old: b"/a/f".to_vec(),
        new: b"/b/g".to_vec(),
    }
}
