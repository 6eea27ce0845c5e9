//! The parts of the vectors: each has a file of cases, and a line of expected answer for each of them.

pub mod check;
pub mod compare;
pub mod crowded;
pub mod damage;
pub mod exchange;
pub mod groups;
pub mod land;
pub mod links;
pub mod portable;
pub mod random;
pub mod rename;
pub mod repair;
pub mod stand_in;
pub mod sticky;
pub mod trees;
pub mod walk;

use crate::vectors::Writer;

pub struct Part {
    pub name: &'static str,
    pub make: fn() -> Collection,
}

/// The file of the answers, part after part: what the program of the proved library prints.
pub const ANSWERS: &str = "crates/vectors/stdout";

/// Every part, in the order of the answers; this list alone decides what is written and verified.
pub const PARTS: &[Part] = &[
    // an image: its number
    Part { name: "check", make: check::part::all },
    // an image, a plan, a row: the number and the image after
    Part { name: "land", make: land::part::all },
    // an image, a request: where both walks end
    Part { name: "walk", make: walk::part::all },
    // an image, a buffer, a request: number, rows, both counts and the buffer after
    Part { name: "rename", make: rename::part::all },
    // an image, a plan buffer, a scratch buffer: number, rows and both buffers after
    Part { name: "repair", make: repair::part::all },
    // what a rename has, with further groups: what a rename answers
    Part { name: "groups", make: groups::part::all },
    // renames about the sticky bit, some with further groups: what a rename answers
    Part { name: "sticky", make: sticky::part::all },
    // walks and renames through many symlinks: what a walk and what a rename answers
    Part { name: "links", make: links::part::all },
    // walks and renames about new's final name: what each of them answers
    Part { name: "portable", make: portable::part::all },
    // two names: whether they are the same, and the pieces read
    Part { name: "compare", make: compare::part::all },
    // a full image, mostly with names that crowd: its number
    Part { name: "crowded", make: crowded::part::all },
    // what a rename has, with flags, and repairs of exchanges: what a rename and what a repair answers
    Part { name: "exchange", make: exchange::part::all },
];

/// The cases of one class, by the numbers that answer them; those of the compare by the pieces that it reads.
pub struct Class {
    pub name: &'static str,
    pub numbers: Vec<u8>,
}

/// The cases of one part: its file, and what stands in it.
#[derive(Default)]
pub struct Collection {
    pub writer: Writer,
    pub lines: Vec<String>,
    pub classes: Vec<Class>,
}

impl Collection {
    /// Counts a case that is already written, under the number that tells most of its line.
    pub fn count(&mut self, class: &'static str, number: u8, line: String) {
        self.lines.push(line);
        match self.classes.iter_mut().find(|known| known.name == class) {
            Some(known) => known.numbers.push(number),
            None => self.classes.push(Class { name: class, numbers: vec![number] }),
        }
    }

    /// The expected answers: a line for each case.
    pub fn expected(&self) -> String {
        self.lines.iter().map(|line| format!("{line}\n")).collect()
    }

    /// The classes as rows of a table: cases, then how many have each number that occurs at all.
    pub fn table(&self) -> Vec<String> {
        let all: Vec<u8> = self.classes.iter().flat_map(|class| class.numbers.iter().copied()).collect();
        let mut columns = all.clone();
        columns.sort_unstable();
        columns.dedup();
        let row = |name: &str, numbers: &[u8]| {
            let count = |wanted: &u8| numbers.iter().filter(|&number| number == wanted).count();
            let counts: String = columns.iter().map(|column| format!(" {} |", count(column))).collect();
            format!("| {name} | {} |{counts}", numbers.len())
        };
        let heads: String = columns.iter().map(|column| format!(" {column} |")).collect();
        let mut table = vec![format!("| class | cases |{heads}")];
        table.extend(self.classes.iter().map(|class| row(class.name, &class.numbers)));
        table.push(row("all", &all));
        table
    }
}
