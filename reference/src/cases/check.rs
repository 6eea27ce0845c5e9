//! Check cases: images, consistent or broken in a way that their clause tells.

pub mod part;
pub mod variants;
