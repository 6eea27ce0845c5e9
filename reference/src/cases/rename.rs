//! Rename cases: requests on images, most of them with the number and the rows that they must get.

pub mod bench;
pub mod buffers;
pub mod damaged_images;
pub mod limits;
pub mod misleading_paths;
pub mod open_inodes;
pub mod part;
pub mod permissions;
pub mod random_renames;
pub mod refused_walks;
pub mod scene;
pub mod slots;
pub mod steps;
pub mod times;

use crate::cases::trees::builder::Tree;
use crate::cases::trees::for_renames::{GROUP, OWNER};
use crate::model::permission::Credentials;
use crate::model::request::{Operand, Request, CURRENT};
use crate::vectors::Buffer;

/// What the table that made a case tells of its answer; counts only where they are told too.
#[derive(Clone, Copy, Debug, PartialEq, Eq)]
pub struct Told {
    pub number: u8,
    pub rows: u8,
    pub steps: Option<[u16; 2]>,
}

impl Told {
    pub fn refused(number: u8) -> Told {
        Told { number, rows: 0, steps: None }
    }
}

#[derive(Clone)]
pub struct RenameCase {
    pub class: &'static str,
    pub image: Vec<u8>,
    /// Nothing where any buffer that is long enough will do.
    pub buffer: Option<Buffer>,
    pub request: Request,
    pub now: u64,
    /// Nothing where the model's answer stands.
    pub told: Option<Told>,
}

pub type RenameCases = Vec<RenameCase>;

/// A time behind all that the trees made by hand have.
pub(super) const NOW: u64 = 5000;

/// The owner of the rename tree, in root.
const CALLER: Credentials = Credentials::new(OWNER, GROUP);

pub(super) fn request(old: &str, new: &str) -> Request {
    let operand = |path: &str| Operand::new(CURRENT, path.as_bytes());
    Request { who: CALLER, current: 0, flags: 0, old: operand(old), new: operand(new) }
}

pub(super) fn case(class: &'static str, tree: &Tree, request: Request, told: Told) -> RenameCase {
    RenameCase { class, image: tree.encode(), buffer: None, request, now: NOW, told: Some(told) }
}

/// The components of a path that leads through no symlink.
pub(super) fn components(path: &str) -> u16 {
    path.split('/').filter(|name| !name.is_empty()).count() as u16
}
