//! The reference model: it does the jobs, and makes the test vectors that the proved library must answer alike.

pub mod bench;
pub mod cases;
pub mod explore;
pub mod model;
pub mod plain;
pub mod vectors;

#[cfg(test)]
mod tests;
