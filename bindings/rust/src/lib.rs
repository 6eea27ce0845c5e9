//! A safe wrapper of Mirepillar's four proved jobs.
//!
//! Any bytes may be given to any of them: every call ends with one [`Number`], and what a job does not say that it
//! writes is as it was. Nothing here opens a file, takes memory or keeps anything between calls.
//!
//! ```
//! use mirepillar::{check, Number};
//!
//! assert_eq!(check(b"not an image"), Number::UNSOUND);
//! assert_eq!(Number::UNSOUND.to_string(), "201 unsound image");
//! ```

mod jobs;
mod number;
mod plan;
mod raw;

pub use jobs::{check, land, rename, repair, Renamed, Repaired, Request};
pub use number::Number;
pub use plan::{Plan, Row};

/// The bytes of the longest image.
pub const LONGEST_IMAGE: usize = 53_448;
/// The bytes of a plan.
pub const PLAN_BYTES: usize = 648;
/// The most rows of a plan.
pub const PLAN_ROWS: usize = 9;
/// The most groups of a caller beside the effective one.
pub const MOST_GROUPS: usize = 16;
/// The start of a relative path that begins in the current directory and at no handle.
pub const CURRENT_DIRECTORY: u8 = 255;
/// The flag of a rename that is refused where the new name exists.
pub const NO_REPLACE: u32 = 1;
/// The flag of a rename that gives each of two names the other's file.
pub const EXCHANGE: u32 = 2;
