//! The model's jobs on small trees and on any bytes.

mod check;
mod exchange;
mod finished;
mod land;
mod rename;
mod repair;

use std::collections::BTreeSet;
use std::path::{Path, PathBuf};

fn files_below(folder: &Path) -> Vec<PathBuf> {
    let entries = std::fs::read_dir(folder).expect("the folder can be read");
    let paths = entries.map(|entry| entry.expect("the folder can be read").path());
    paths.flat_map(|path| if path.is_dir() { files_below(&path) } else { vec![path] }).collect()
}

/// Every file of the folder and of those in it, with its text.
fn texts_below(folder: &str) -> Vec<(PathBuf, String)> {
    let files = files_below(&Path::new(env!("CARGO_MANIFEST_DIR")).join(folder));
    let text = |file: &PathBuf| std::fs::read_to_string(file).expect("the file can be read");
    files.into_iter().map(|file| (file.clone(), text(&file))).collect()
}

/// The cases are made from the model; were it the other way round too, neither could be a check on the other.
#[test]
fn the_model_knows_nothing_of_the_cases() {
    let files = texts_below("src/model");
    assert!(files.len() > 10);
    for (file, text) in files {
        for other in ["crate::cases", "crate::explore", "crate::vectors"] {
            assert!(!text.contains(other), "{} uses {other}", file.display());
        }
    }
}

/// A line that names a rule has its number behind the word, or in the table of a job's rules or refusals.
fn names_a_rule(line: &str) -> bool {
    ["ule ", "ules ", "rule(", "step(", "of_a_rename(", "unfit(", "Refusal::new("]
        .iter()
        .any(|sign| line.contains(sign))
}

/// Rules 112 and on are about crashes, of which the explorer makes every one.
#[test]
fn every_rule_has_a_place_that_names_its_number() {
    let files = [texts_below("src/model"), texts_below("src/explore")].concat();
    let explorer = include_str!("../explore.rs");
    let texts = files.iter().map(|(_, text)| text.as_str()).chain([explorer]);
    let lines = texts.flat_map(str::lines).filter(|line| names_a_rule(line));
    let numbers = lines.flat_map(|line| line.split(|letter: char| !letter.is_ascii_digit()));
    let named: BTreeSet<u8> = numbers.filter_map(|number| number.parse().ok()).collect();
    let missing: Vec<u8> = (1..=117).filter(|rule| !named.contains(rule)).collect();
    assert_eq!(missing, [] as [u8; 0]);
}
