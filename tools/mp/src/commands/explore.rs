//! `mp explore`.

use super::{answer_renamed, asked, print, survived, tell, Command, Outcome};
use crate::arguments::{valued, Arguments, Known};
use crate::explore::{self, dot, page, report, rows, Call, Exploration};
use crate::files;
use crate::progress::Progress;
use crate::request::Asked;
use mirepillar::Plan;
use std::path::Path;

pub const COMMAND: Command = Command {
    name: "explore",
    words: "[OPTION...] IMAGE OLD NEW",
    further: "[OPTION...] IMAGE REQUEST",
    about: "every crash of a rename",
    text: "Plans the rename, and goes through every image that any permitted order of landing and any power cut can leave, with\n\
           cuts during repair, each repaired and landed. The last line says whether the rename survives. The image is only read.\n\
           A rename that is refused, or has nothing to do, is answered as by mp rename, and there is no graph or page of it.\n\n\
           Who asks, and when, is said as for mp rename, by the file REQUEST or by options; --exchange and --no-replace are\n\
           always options.\n\n\
           --dot FILE writes the graph of states for Graphviz; --html FILE a page in which to step through them; --save FILE\n\
           the request, also of a rename that is refused.",
    example: "$ mp explore tree.img /a/f /b/g\n...\nthis rename survives 283 states",
    options: &[asked::OPTIONS, FILES],
    run,
};

/// The options that name a file to be written.
const FILES: &[Known] = &[valued("--dot", "file"), valued("--html", "file"), valued("--save", "file")];

fn run(arguments: &Arguments) -> Outcome {
    let given = asked::given(arguments, &[])?;
    let written: Vec<(&str, &Path)> =
        FILES.iter().filter_map(|option| Some((option.name, arguments.path(option.name)?))).collect();
    files::all_different(&written, &given.read)?;
    if let Some(file) = arguments.path("--save") {
        files::write(file, &given.asked.write()?)?;
    }
    let mut plan = Plan::EMPTY;
    let answered = mirepillar::rename(&given.image, &given.asked.request(), &mut plan.0);
    if answered.rows == 0 {
        let why = if answered.number.is_done() { "both names are of one file" } else { "the rename is refused" };
        tell(&format!("{why}, so there is nothing to explore"));
        return answer_renamed(answered);
    }
    let mut progress = Progress::new("states");
    let call = Call::new(given.image, plan);
    let found = explore::search::explore(call, explore::PROVED, &mut |states| progress.at(states));
    write_graphs(arguments, &found, &given.asked)?;
    print(&format!("{}\n{}", planned(&given.asked, &found.call), report::report(&found).join("\n")))?;
    Ok(survived(&found))
}

/// The call and its rows.
fn planned(asked: &Asked, call: &Call) -> String {
    let rows = rows::lines(call, &call.plan);
    let count = report::counted(rows.len(), "row", "rows");
    format!("{}, planned in {count}:\n{}", asked.said(), rows.join("\n"))
}

fn write_graphs(arguments: &Arguments, found: &Exploration, asked: &Asked) -> Result<(), String> {
    if let Some(file) = arguments.path("--dot") {
        files::write(file, dot::dot(found).as_bytes())?;
    }
    if let Some(file) = arguments.path("--html") {
        files::write(file, page::page(found, &asked.said()).as_bytes())?;
    }
    Ok(())
}
