//! The files of vectors: what is read back is what was asked, and the document counts it.

use super::made::{
    Made, CHECKS, COMPARES, CROWDED, LANDINGS, PORTABLE_NAMES, RENAMES, RENAMES_WITH_GROUPS, REPAIRS, STICKY_RENAMES,
    THROUGH_SYMLINKS, WALKS, WITH_FLAGS,
};
use crate::cases::{compare, land, rename, repair, walk, Collection, PARTS};
use crate::model::check::check;
use crate::model::compare::compare as compared;

/// Every part by its name, in the order of the answers.
fn collections() -> [(&'static str, &'static Collection); 12] {
    [
        ("check", &CHECKS.collection),
        ("land", &LANDINGS.collection),
        ("walk", &WALKS.collection),
        ("rename", &RENAMES.collection),
        ("repair", &REPAIRS.collection),
        ("groups", &RENAMES_WITH_GROUPS.collection),
        ("sticky", &STICKY_RENAMES.collection),
        ("links", &THROUGH_SYMLINKS.collection),
        ("portable", &PORTABLE_NAMES.collection),
        ("compare", &COMPARES.collection),
        ("crowded", &CROWDED.collection),
        ("exchange", &WITH_FLAGS.collection),
    ]
}

#[test]
fn every_part_is_among_these() {
    assert!(PARTS.iter().map(|part| part.name).eq(collections().map(|(name, _)| name)));
}

#[test]
fn the_document_counts_every_class() {
    let document = include_str!("../../../docs/VECTORS.md");
    for (name, collection) in collections() {
        for row in collection.table() {
            assert!(document.lines().any(|line| line == row), "{name}: docs/VECTORS.md lacks the row {row}");
        }
    }
}

#[test]
fn every_file_stays_small() {
    for (name, collection) in collections() {
        assert!(collection.writer.data.len() < 1_000_000, "{name}");
    }
}

/// The answers of the cases as they are read back.
fn assert_lines<T>(cases: &[T], collection: &Collection, line: impl Fn(&T) -> String) {
    assert_eq!(cases.iter().map(line).collect::<Vec<_>>(), collection.lines);
}

#[test]
fn the_stored_images_have_the_stored_answers() {
    for Made { cases, collection } in [&*CHECKS, &*CROWDED] {
        assert_lines(cases, collection, |image| check(image).to_string());
    }
}

#[test]
fn the_stored_landings_have_the_stored_answers() {
    assert_lines(&LANDINGS.cases, &LANDINGS.collection, |landing| land::part::answer(landing).1);
}

#[test]
fn the_stored_walks_have_the_stored_answers() {
    assert_lines(&WALKS.cases, &WALKS.collection, |walking| walk::part::line(&walk::part::walks_of(walking)));
}

#[test]
fn the_stored_renames_have_the_stored_answers() {
    assert_lines(&RENAMES.cases, &RENAMES.collection, |renaming| rename::part::answer(renaming).1);
}

#[test]
fn the_stored_repairs_have_the_stored_answers() {
    assert_lines(&REPAIRS.cases, &REPAIRS.collection, |repairing| repair::part::answer(repairing).1);
}

#[test]
fn the_stored_renames_with_groups_have_the_stored_answers() {
    let Made { cases, collection } = &*RENAMES_WITH_GROUPS;
    assert_lines(cases, collection, |renaming| rename::part::answer(renaming).1);
}

#[test]
fn the_stored_sticky_renames_have_the_stored_answers() {
    let Made { cases, collection } = &*STICKY_RENAMES;
    assert_lines(cases, collection, |renaming| rename::part::answer(renaming).1);
}

#[test]
fn the_stored_pairs_of_names_have_the_stored_answers() {
    let Made { cases, collection } = &*COMPARES;
    assert_lines(cases, collection, |names| compare::part::line(compared(&names.first, &names.second)));
}

/// Both kinds, and nothing else, make up such a part.
#[test]
fn the_stored_walks_and_renames_of_one_part_have_the_stored_answers() {
    for made in [&THROUGH_SYMLINKS, &PORTABLE_NAMES] {
        made.walks().for_each(|(walking, line)| assert_eq!(walk::part::line(&walk::part::walks_of(walking)), *line));
        made.renames().for_each(|(renaming, line)| assert_eq!(rename::part::answer(renaming).1, *line));
        assert_eq!(made.walks().count() + made.renames().count(), made.collection.lines.len());
    }
}

#[test]
fn the_stored_renames_with_flags_and_repairs_have_the_stored_answers() {
    let made = &WITH_FLAGS;
    made.renames().for_each(|(renaming, line)| assert_eq!(rename::part::answer(renaming).1, *line));
    made.repairs().for_each(|(repairing, line)| assert_eq!(repair::part::answer(repairing).1, *line));
    assert_eq!(made.renames().count() + made.repairs().count(), made.collection.lines.len());
}
