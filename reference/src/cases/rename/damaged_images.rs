//! Damaged images under requests of every fate: the image's own refusals come before the request's.

use super::{case, request, RenameCase, RenameCases, Told};
use crate::cases::damage::subject::Subject;
use crate::cases::damage::{Clause, JOURNAL_CLAUSES, LAYOUT_CLAUSES, RECORD_CLAUSES};
use crate::cases::random::Random;
use crate::cases::trees::bench::bench_tree;
use crate::model::numbers::BUFFER_TOO_SHORT;
use crate::model::permission::Credentials;
use crate::model::request::Request;
use crate::vectors::{edits, Buffer};

const OF_A_CLAUSE: usize = 4;

/// One that plans rows, one that is wrong, and ones that a walk or a step refuses.
fn requests() -> [Request; 5] {
    let paths = [("/a/f", "/a/k"), ("/a/f\0", "/a/k"), ("nope", "/a/k"), ("/a/f", "/a/d"), ("/a/f", "/b/h")];
    paths.map(|(old, new)| {
        let mut request = request(old, new);
        request.who = Credentials::new(0, 0);
        request.current = if old == "nope" { u16::MAX } else { 0 };
        request
    })
}

fn of_clause(class: &'static str, clause: &Clause, subject: &Subject, random: &mut Random) -> RenameCases {
    let mut images = (clause.images)(subject);
    images.retain(|image| edits(&subject.bytes, image).is_some());
    random.shuffle(&mut images);
    let number = clause.breaks.answer();
    let case = |image: Vec<u8>| {
        let short = random.one_in(8);
        let told = Told { number: if short { BUFFER_TOO_SHORT } else { number }, rows: 0, steps: Some([0, 0]) };
        let buffer = short.then(|| Buffer { len: random.below(648) as u16, fill: random.byte() });
        let request = random.pick(&requests()).clone();
        RenameCase { image, buffer, ..case(class, &subject.tree, request, told) }
    };
    images.into_iter().take(OF_A_CLAUSE).map(case).collect()
}

pub fn cases(random: &mut Random) -> RenameCases {
    let subject = Subject::new(bench_tree());
    let tables =
        [("broken layout", LAYOUT_CLAUSES), ("journal record", JOURNAL_CLAUSES), ("broken records", RECORD_CLAUSES)];
    let clauses = tables.iter().flat_map(|(class, clauses)| clauses.iter().map(move |clause| (*class, clause)));
    clauses.flat_map(|(class, clause)| of_clause(class, clause, &subject, random)).collect()
}
