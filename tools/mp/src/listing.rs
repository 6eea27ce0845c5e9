//! An image as a listing: one line for each name, handle and kind of record. docs/LISTING.md has the format.

mod attributes;
mod build;
mod fault;
mod numbers;
mod operands;
mod print;
mod quoting;
mod statement;
mod table;
mod tree;
mod words;

#[cfg(test)]
mod tests;

use crate::image::Image;

pub use fault::Fault;
pub use print::print;

/// The image of a listing: consistent, or there is a fault that says where the listing is wrong.
pub fn parse(text: &[u8]) -> Result<Image, Fault> {
    let mut statements = Vec::new();
    for (index, line) in text.split(|&byte| byte == b'\n').enumerate() {
        let line = line.strip_suffix(b"\r").unwrap_or(line);
        let words = words::words(line, index + 1)?;
        if let Some((first, rest)) = words.split_first() {
            statements.push(statement::statement(first, rest)?);
        }
    }
    build::build(&statements)
}
