//! Mirepillar's command line tool. Every answer comes from the proved library; what is here reads, shows and writes files.

pub mod arguments;
pub mod commands;
pub mod explore;
pub mod files;
pub mod image;
pub mod listing;
pub mod output;
pub mod progress;
pub mod random;
pub mod random_image;
pub mod request;
pub mod soak;
