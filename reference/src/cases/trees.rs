//! Consistent trees that cases start from.

pub mod bench;
pub mod builder;
pub mod for_crashes;
pub mod for_links;
pub mod for_names;
pub mod for_renames;
pub mod for_walks;
pub mod generated;
pub mod samples;
