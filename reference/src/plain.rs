//! A straightforward program of the same jobs, for the library's times to be compared with: few passes, duplicate names
//! found by sorting, no table but arrays and vectors.
//!
//! Its answers are the model's in every case. Of the model it takes the forms of records, requests and plans, the
//! numbers and the permissions; what each job does is written anew, so that it has none of the model's many passes.

mod case;
mod check;
mod duplicates;
mod exchange;
mod image;
mod journal;
mod land;
mod rename;
mod repair;
mod rows;
mod walk;

pub use check::check;
pub use land::land;
pub use rename::rename;
pub use repair::repair;
