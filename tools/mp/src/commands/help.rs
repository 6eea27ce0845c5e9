//! How to use the tool: all commands in a table, or one of them in full.

use super::{find, print, Command, Outcome, Verdict, COMMANDS};
use crate::arguments::Arguments;

/// `mp` alone, and `mp help`.
pub fn all() -> Outcome {
    let mut text = String::from(
        "mp: does a rename survive any order of stores and any power cut?\n\n\
         Checks, renames, lands and repairs image files with Mirepillar's proved jobs, and explores every crash.\n\n",
    );
    for command in COMMANDS {
        text.push_str(&format!(
            "  mp {:<36} {}\n",
            format!("{} {}", command.name, short(command.words)),
            command.about
        ));
    }
    text.push_str("\nmp help COMMAND tells more, with an example. Begin with: mp demo");
    print(&text)?;
    Ok(Verdict::Done)
}

/// The words of a command without its options.
fn short(words: &str) -> String {
    let is_option = |word: &&str| word.contains(['[', ']', '-']);
    words.split(' ').filter(|word| !is_option(word)).collect::<Vec<_>>().join(" ")
}

/// `mp help COMMAND`.
pub fn help(arguments: &Arguments) -> Outcome {
    if arguments.word_count() == 0 {
        return all();
    }
    let [name] = arguments.words(["COMMAND"])?;
    of(find(&name.to_string_lossy())?)
}

/// One command in full.
pub fn of(command: &Command) -> Outcome {
    print(&one(command))?;
    Ok(Verdict::Done)
}

fn one(command: &Command) -> String {
    let Command { name, words, further, about, text, example, .. } = command;
    let indented = |lines: Vec<&str>| lines.iter().map(|line| format!("    {line}")).collect::<Vec<_>>().join("\n");
    let mut usage = indented(vec![format!("mp {name} {words}").trim_end()]);
    if !further.is_empty() {
        usage += &format!("\n    mp {name} {further}");
    }
    format!("mp {name}: {about}\n\n{usage}\n\n{text}\n\nexample:\n{}", indented(example.lines().collect()))
}
