//! `mp check`.

use super::{answer, Command, Outcome};
use crate::arguments::Arguments;
use crate::files;
use std::path::Path;

pub const COMMAND: Command = Command {
    name: "check",
    words: "IMAGE",
    further: "",
    about: "is the image sound?",
    text: "Prints one number: 0 where the image is sound, 203 where the journal record, the note, is not clear (repair first), 201 for any other fault.\n\
           The file is only read.",
    example: "$ mp check tree.img\n0",
    options: &[],
    run,
};

fn run(arguments: &Arguments) -> Outcome {
    let [image] = arguments.words(["IMAGE"])?;
    let image = files::read(Path::new(image))?;
    answer(mirepillar::check(&image), &[])
}
