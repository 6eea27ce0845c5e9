//! `mp tree`.

use super::{print, Command, Outcome, Verdict};
use crate::arguments::Arguments;
use crate::files;
use crate::image::Image;
use crate::listing;
use std::path::Path;

pub const COMMAND: Command = Command {
    name: "tree",
    words: "IMAGE",
    further: "",
    about: "shows the image as a listing",
    text: "Prints every name with its type, mode, owner, link count, times, inode and slot, then the handles, the number of\n\
           records of each kind, and the journal record in words. An image that a power cut has left is shown, too; only its table of\n\
           contents has to be right. mp make reads the same form.",
    example: "$ mp tree tree.img > tree.txt",
    options: &[],
    run,
};

fn run(arguments: &Arguments) -> Outcome {
    let [path] = arguments.words(["IMAGE"])?;
    let bytes = files::read(Path::new(path))?;
    let image =
        Image::read(&bytes).map_err(|sentence| format!("{} is no image: {sentence}", files::named(Path::new(path))))?;
    let number = mirepillar::check(&bytes);
    print(listing::print(&image).trim_end_matches('\n'))?;
    if !number.is_done() {
        print(&format!("# mp check answers {number}"))?;
    }
    Ok(Verdict::Done)
}
