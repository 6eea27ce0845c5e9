//! What an exploration found, as people read it.

use super::names::Names;
use super::{Exploration, Outcome, Phase};
use std::collections::BTreeMap;

/// A number with the word for one or for several.
pub fn counted(number: usize, one: &str, several: &str) -> String {
    format!("{number} {}", if number == 1 { one } else { several })
}

/// One kind of state: what the names lead to, whether the journal record is clear, and what repair makes of it.
type Class = (Names, bool, Outcome);

/// How many images and states there are of a class.
#[derive(Default)]
struct Counts {
    images: usize,
    states: usize,
}

fn classes(found: &Exploration) -> BTreeMap<Class, Counts> {
    let class_of = |image: usize| {
        let image = &found.images[image];
        (image.names, image.clear, image.outcome)
    };
    let mut classes: BTreeMap<Class, Counts> = BTreeMap::new();
    for image in 0..found.images.len() {
        classes.entry(class_of(image)).or_default().images += 1;
    }
    for state in &found.states {
        classes.entry(class_of(state.key.image)).or_default().states += 1;
    }
    classes
}

/// The table of the classes.
fn table(found: &Exploration) -> Vec<String> {
    let mut lines = vec![format!("  {:>6}  {:>6}  {:<8}  {:<8}  names", "images", "states", "journal", "repaired")];
    for ((names, clear, outcome), counts) in classes(found) {
        let journal = if clear { "clear" } else { "pending" };
        let repaired = match outcome {
            Outcome::Before => "before",
            Outcome::Finished => "finished",
            Outcome::Otherwise => "NEITHER",
        };
        let Counts { images, states } = counts;
        lines.push(format!("  {images:>6}  {states:>6}  {journal:<8}  {repaired:<8}  {}", names.said()));
    }
    lines
}

/// How the journal record tells what became of the call.
fn told_apart(found: &Exploration) -> &'static str {
    match found.call.exchange {
        true => "A pending journal record means that the exchange goes forward; a clear one, that nothing or all of it has been done.",
        false => {
            "A pending journal record and a new entry that leads to the moved file mean that the rename goes forward; \
             a pending one without such an entry, that it is taken back; a clear one, that nothing or all of it has been done."
        }
    }
}

/// The verdict, in one line.
pub fn verdict(found: &Exploration) -> String {
    let what = if found.call.exchange { "exchange" } else { "rename" };
    let states = counted(found.states.len(), "state", "states");
    match found.breaches.len() {
        0 => format!("this {what} survives {states}"),
        breaches => format!("this {what} does NOT survive: {} in {states}", counted(breaches, "breach", "breaches")),
    }
}

/// The whole report.
pub fn report(found: &Exploration) -> Vec<String> {
    let repairs = found.states.iter().filter(|state| state.key.phase == Phase::Repair).count();
    let mut lines = vec![
        format!(
            "{} and {} with cuts and repairs: {} on the way of the call, {repairs} on the way of a repair",
            counted(found.images.len(), "image", "images"),
            counted(found.states.len(), "state", "states"),
            found.states.len() - repairs,
        ),
        format!(
            "repaired and landed: {} end as the image before, {} as the finished one, {} otherwise",
            found.ending(Outcome::Before),
            found.ending(Outcome::Finished),
            found.ending(Outcome::Otherwise),
        ),
    ];
    lines.extend(table(found));
    lines.push(told_apart(found).to_string());
    lines.extend(
        found
            .breaches
            .iter()
            .map(|(state, sentence)| format!("breach in state {state}, {}: {sentence}", way(found, *state))),
    );
    lines.push(verdict(found));
    lines
}

/// How a state is reached, as `after row 0, row 1, cut, row 3`.
pub fn way(found: &Exploration, state: usize) -> String {
    let events = found.path_to(state);
    if events.is_empty() {
        return "at the start".to_string();
    }
    let words: Vec<String> =
        events.iter().map(|event| event.map_or("cut".to_string(), |row| format!("row {row}"))).collect();
    format!("after {}", words.join(", "))
}
