//! Walk cases: requests on consistent trees, most of them with the number and the counts that they must get.

pub mod bench;
pub mod lookups;
pub mod part;
pub mod permissions;
pub mod probes;
pub mod random_walks;
pub mod requests;
pub mod single_paths;

use crate::cases::trees::builder::Tree;
use crate::cases::trees::for_walks::{GROUP, OWNER};
use crate::model::image::Image;
use crate::model::permission::Credentials;
use crate::model::request::{Operand, Request, CURRENT};
use crate::model::walk::{walk, Role};

/// The number and both counts, as the table that made the case tells them.
#[derive(Clone, Copy, Debug, PartialEq, Eq)]
pub struct Told {
    pub number: u8,
    pub steps: [u16; 2],
}

/// A request on a tree, which may be a variant of the one that its base image shows.
pub struct WalkCase {
    pub class: &'static str,
    pub tree: Tree,
    pub request: Request,
    /// Nothing where the model's answer stands.
    pub told: Option<Told>,
}

pub type WalkCases = Vec<WalkCase>;

/// The walk tree's owner, in root.
fn request(old: Operand, new: Operand) -> Request {
    Request { who: Credentials::new(OWNER, GROUP), current: 0, flags: 0, old, new }
}

fn from_current(path: &[u8]) -> Operand {
    Operand::new(CURRENT, path)
}

/// Symlinks that one path could lead through when the cases of the walk and of the rename were chosen by their answers. More
/// are followed since then, but the cases stay what they are.
const FOLLOWED_BEFORE: usize = 8;

/// Whether neither path leads through more symlinks than that. Where one does, its walk was refused.
pub fn few_are_followed(image: &[u8], request: &Request) -> bool {
    let few = |image: Image| [Role::Old, Role::New].map(|role| walk(&image, request, role).followed <= FOLLOWED_BEFORE);
    Image::read(image).is_some_and(|image| few(image) == [true; 2])
}
