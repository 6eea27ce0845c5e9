//! Tests of listings.

mod bench;
mod broken;
mod faults;
mod hand_written;
mod round_trip;

use super::{parse, print};
use crate::image::Image;

/// The bench tree's listing, as the tool carries it.
const BENCH: &str = include_str!("../../data/bench.listing");

fn parsed(listing: &str) -> Image {
    parse(listing.as_bytes()).unwrap_or_else(|fault| panic!("{fault}\n{listing}"))
}

/// What is wrong with a listing, as a user reads it.
fn fault(listing: &[u8]) -> String {
    match parse(listing) {
        Ok(image) => panic!("it is taken:\n{}", print(&image)),
        Err(fault) => fault.to_string(),
    }
}

/// Asserts that a listing has a line of these words, however far they stand apart.
fn has_line(listing: &str, line: &str) {
    let words = |line: &str| line.split_whitespace().collect::<Vec<_>>().join(" ");
    assert!(listing.lines().any(|found| words(found) == line), "{line}\n{listing}");
}

/// A listing of so many lines, each made from its number.
fn lines(count: usize, line: impl Fn(usize) -> String) -> String {
    (0..count).map(|number| line(number) + "\n").collect()
}
