//! `mp rename`.

use super::{answer_renamed, asked, Command, Outcome};
use crate::arguments::Arguments;
use crate::files;
use mirepillar::Plan;

pub const COMMAND: Command = Command {
    name: "rename",
    words: "[OPTION...] IMAGE OLD NEW PLAN",
    further: "[OPTION...] IMAGE REQUEST PLAN",
    about: "plans a rename",
    text: "Prints four numbers: the answer, the plan's rows, and the components looked at of old and of new. Where the answer\n\
           is 0 it makes PLAN, of 648 bytes; otherwise no file is made or changed. The image is only read: mp land lands the\n\
           plan's rows.\n\n\
           By OLD and NEW the caller is user 0 in group 0, the current directory is the root (inode 0), relative paths begin\n\
           there, and the time is one more than the latest in the image; --user N, --group N, --groups N,N,..., --cwd N,\n\
           --old-start N and --new-start N (a handle's number) and --now N say otherwise.\n\n\
           REQUEST is a file that says all of this itself, little-endian: user u32, group u32, now u64, current directory u16,\n\
           old and new start u8 each (a handle, or 255), then u16 each the number of further groups, old length and new length,\n\
           then the groups u32 each, old, new. mp explore --save writes one.\n\n\
           --exchange gives each of the two names the other's file; --no-replace answers 17 where new exists. These two go with\n\
           a REQUEST as well, which has no place for them.",
    example: "$ mp rename tree.img /a/f /b/g plan\n0 8 2 2",
    options: &[asked::OPTIONS],
    run,
};

fn run(arguments: &Arguments) -> Outcome {
    let given = asked::given(arguments, &["PLAN"])?;
    files::all_different(&[("PLAN", given.behind[0])], &given.read)?;
    let mut plan = Plan::EMPTY;
    let answered = mirepillar::rename(&given.image, &given.asked.request(), &mut plan.0);
    if answered.number.is_done() {
        files::write(given.behind[0], &plan.0)?;
    }
    answer_renamed(answered)
}
