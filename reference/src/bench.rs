//! What the library's times are measured on: images, requests and crashes on them, how batches are timed, and what is told.

pub mod bucket;
pub mod images;
pub mod plot;
pub mod report;
pub mod requests;
pub mod times;
