//! `mp make`.

use super::{tell, Command, Outcome, Verdict};
use crate::arguments::Arguments;
use crate::files;
use crate::listing;
use std::path::Path;

pub const COMMAND: Command = Command {
    name: "make",
    words: "IMAGE < LISTING",
    further: "",
    about: "builds a sound image from a listing",
    text: "Reads lines such as\n\n\
           \x20   dir  /live\n\
           \x20   file /live/config\n\
           \x20   dir  mode=0700 owner=100:100 /new\n\
           \x20   link /current -> live\n\
           \x20   name /live/backup = /live/config\n\
           \x20   handle 0 open /live\n\n\
           and writes a sound image. What is left out is chosen; docs/LISTING.md has every line and attribute. A fault is told\n\
           with its line and column, and then no file is made or changed.",
    example: "$ printf 'dir /a\\nfile /a/f\\n' | mp make tree.img",
    options: &[],
    run,
};

fn run(arguments: &Arguments) -> Outcome {
    let [path] = arguments.words(["IMAGE"])?;
    let text = files::read_from(std::io::stdin().lock(), "the listing on standard input", files::LONGEST_LISTING)?;
    // What should have written the listing may have failed, and an image of the root alone takes two words.
    if text.trim_ascii().is_empty() {
        return Err(
            "the listing on standard input is empty; for an image of the root alone it has to say: dir /".to_string()
        );
    }
    let image = listing::parse(&text).map_err(|fault| format!("the listing on standard input, {fault}"))?;
    let bytes = image.write();
    files::write(Path::new(path), &bytes)?;
    tell(&format!("{}: a sound image of {} bytes", files::named(Path::new(path)), bytes.len()));
    Ok(Verdict::Done)
}
