//! The graph of states for Graphviz.

use super::{Exploration, Outcome, State};

fn colour(outcome: Outcome) -> &'static str {
    match outcome {
        Outcome::Before => "#cfe3ff",
        Outcome::Finished => "#d2f0d0",
        Outcome::Otherwise => "#ffb3b3",
    }
}

fn node(found: &Exploration, number: usize, state: &State) -> String {
    let image = &found.images[state.key.image];
    let journal = if image.clear { "clear" } else { "pending" };
    let waiting = state.key.waiting.count_ones();
    let ends = if waiting == 0 { ", peripheries=2" } else { "" };
    format!(
        "  s{number} [label=\"{number}\\nimage {}, {waiting} wait\\njournal {journal}\", fillcolor=\"{}\"{ends}];\n",
        state.key.image,
        colour(image.outcome)
    )
}

/// The graph: blue states end as the image before, green ones as the finished one; a dashed edge is a cut with its repair.
pub fn dot(found: &Exploration) -> String {
    let mut text =
        String::from("digraph states {\n  rankdir=LR;\n  node [shape=box, style=filled, fontname=\"sans-serif\"];\n");
    for (number, state) in found.states.iter().enumerate() {
        text.push_str(&node(found, number, state));
    }
    for (number, state) in found.states.iter().enumerate() {
        for (row, next) in &state.landings {
            text.push_str(&format!("  s{number} -> s{next} [label=\"row {row}\"];\n"));
        }
        for next in state.cut.iter().filter(|&&next| next != number) {
            text.push_str(&format!("  s{number} -> s{next} [style=dashed, color=\"#b04040\"];\n"));
        }
    }
    text.push_str("}\n");
    text
}
