//! `mp demo`: the main job on a small tree that needs no file.

use super::{bench, print, survived, Command, Outcome};
use crate::arguments::Arguments;
use crate::explore::{self, report, rows, unordered, Call};
use mirepillar::Plan;

pub const COMMAND: Command = Command {
    name: "demo",
    words: "",
    further: "",
    about: "the whole of it on a small tree",
    text: "Plans a rename that replaces a file on a tree of seven inodes, shows the plan's rows by group, explores every order of\n\
           landing and every power cut, and says what would be lost if the groups were not kept apart. No file is read or written.",
    example: "$ mp demo",
    options: &[],
    run,
};

fn run(arguments: &Arguments) -> Outcome {
    let [] = arguments.words([])?;
    let (image, asked) = (bench::image()?, bench::third());
    let mut plan = Plan::EMPTY;
    let answered = mirepillar::rename(&image, &asked.request(), &mut plan.0);
    print(&format!("The tree:\n\n{}", String::from_utf8_lossy(bench::LISTING)))?;
    print(&format!(
        "{}: {}, planned in {}.",
        asked.said(),
        answered.number,
        report::counted(answered.rows, "row", "rows")
    ))?;
    print("Within a group the store may land rows in any order, and a group waits for the one before:\n")?;
    let call = Call::new(image, plan);
    print(&rows::lines(&call, &call.plan).join("\n"))?;
    let without = unordered::unordered(&call, explore::PROVED);
    let found = explore::search::explore(call, explore::PROVED, &mut |_| ());
    print(&format!("\nEvery order and every power cut:\n\n{}", report::report(&found).join("\n")))?;
    print(&format!("\nWithout the groups:\n\n{}", lost(&without)))?;
    Ok(survived(&found))
}

/// What any set of rows could leave.
fn lost(without: &unordered::Unordered) -> String {
    let unordered::Unordered { images, good, otherwise, refused, nameless, loses } = without;
    let mut lines = vec![
        format!("{images} images are what some of the same rows could leave, landed in no order."),
        format!("Repair would make {good} of them whole, {otherwise} into something else, and refuse {refused}."),
        format!("In {nameless} of them the file has neither its old name nor its new one."),
    ];
    if let Some(rows) = loses {
        let rows: Vec<String> = rows.iter().map(|row| format!("row {row}")).collect();
        lines.push(format!("Such an image is that with {} landed and no other.", rows.join(" and ")));
    }
    lines.join("\n")
}
