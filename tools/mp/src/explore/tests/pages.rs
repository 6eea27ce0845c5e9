//! The graph and the page: that they have every state, and nothing from outside.

use super::*;
use crate::explore::{dot::dot, page::page, report};

#[test]
fn the_graph_has_every_state_and_step() {
    let found = explored(call("/a/f", "/b/g", 0));
    let text = dot(&found);
    let lines = |part: &str| text.lines().filter(|line| line.contains(part)).count();
    let landings: usize = found.states.iter().map(|state| state.landings.len()).sum();
    assert_eq!(lines("fillcolor"), found.states.len());
    assert_eq!(lines("label=\"row "), landings);
    assert_eq!(
        lines("style=dashed"),
        found.states.iter().enumerate().filter(|(at, state)| state.cut != Some(*at)).count()
    );
    assert_eq!(lines("#ffb3b3"), 0);
}

#[test]
fn the_page_stands_alone() {
    let found = explored(call("/a/f", "/b/g", 0));
    let text = page(&found, "a title");
    assert!(!text.contains("@DATA@") && !text.contains("http") && !text.contains("src="));
    assert_eq!(text.matches("\"landings\":").count(), found.states.len());
    assert!(text.contains(&report::verdict(&found)));
}

/// A path may have any byte, and must not end the script that it stands in.
#[test]
fn a_title_cannot_break_out() {
    let found = explored(call("/a/f", "/b/g", 0));
    let text = page(&found, "</script>\"\\\n&");
    assert!(text.contains("\\u003c/script\\u003e\\\"\\\\\\u000a\\u0026"));
    assert_eq!(text.matches("</script>").count(), 2);
}

#[test]
fn the_report_counts_every_image_and_state() {
    let found = explored(call("/a/f", "/b/g", 0));
    let lines = report::report(&found);
    let numbers =
        |line: &String| line.split_whitespace().map_while(|word| word.parse::<usize>().ok()).collect::<Vec<_>>();
    let counts: Vec<Vec<usize>> =
        lines.iter().filter(|line| line.starts_with("  ")).map(numbers).filter(|row| row.len() == 2).collect();
    assert_eq!(counts.iter().map(|row| row[0]).sum::<usize>(), found.images.len());
    assert_eq!(counts.iter().map(|row| row[1]).sum::<usize>(), found.states.len());
    assert_eq!(lines.last().map(String::as_str), Some("this rename survives 283 states"));
}
