//! One page without outside parts, in which a person steps through the states.

use super::{report, rows, Call, Exploration, Outcome, Phase, Reached, State};
use mirepillar::Plan;

/// The page, with a place for what was found.
const PAGE: &str = include_str!("page.html");
const PLACE: &str = "@DATA@";

/// The page for an exploration, headed by what the call was.
pub fn page(found: &Exploration, title: &str) -> String {
    PAGE.replace(PLACE, &data(found, title))
}

/// What the page shows, as JSON.
fn data(found: &Exploration, title: &str) -> String {
    let images = list(found.images.iter().map(|image| image_of(&found.call.before, image)));
    let plans = list(found.plans.iter().map(|plan| plan_of(&found.call, plan)));
    let states = list(found.states.iter().map(state_of));
    let (title, verdict, base) = (quoted(title), quoted(&report::verdict(found)), hex(&found.call.before));
    format!(
        "{{\"title\":{title},\"verdict\":{verdict},\"base\":\"{base}\",\n\"images\":{images},\n\"plans\":{plans},\n\"states\":{states}}}"
    )
}

fn list(items: impl Iterator<Item = String>) -> String {
    format!("[{}]", items.collect::<Vec<_>>().join(",\n"))
}

/// An image by what differs from the one before.
fn image_of(before: &[u8], image: &Reached) -> String {
    let changes =
        list(changes(before, &image.bytes).into_iter().map(|(at, bytes)| format!("[{at},\"{}\"]", hex(bytes))));
    let outcome = match image.outcome {
        Outcome::Before => "before",
        Outcome::Finished => "finished",
        Outcome::Otherwise => "otherwise",
    };
    let (names, clear) = (quoted(image.names.said()), image.clear);
    format!("{{\"outcome\":\"{outcome}\",\"names\":{names},\"clear\":{clear},\"changes\":{changes}}}")
}

/// The runs of bytes in which two images of one length differ.
fn changes<'a>(before: &[u8], after: &'a [u8]) -> Vec<(usize, &'a [u8])> {
    let mut runs: Vec<(usize, &[u8])> = Vec::new();
    for at in (0..after.len()).filter(|&at| before[at] != after[at]) {
        match runs.last_mut() {
            Some((begin, run)) if *begin + run.len() == at => *run = &after[*begin..=at],
            _ => runs.push((at, &after[at..=at])),
        }
    }
    runs
}

fn plan_of(call: &Call, plan: &Plan) -> String {
    let row =
        |row: mirepillar::Row| format!("{{\"group\":{},\"stores\":{}}}", row.group, quoted(&rows::said(call, &row)));
    list(plan.rows().map(row))
}

fn state_of(state: &State) -> String {
    let landings = list(state.landings.iter().map(|(row, next)| format!("[{row},{next}]")));
    let cut = state.cut.map_or("null".to_string(), |next| next.to_string());
    let (key, repair) = (state.key, state.key.phase == Phase::Repair);
    format!(
        "{{\"image\":{},\"plan\":{},\"waiting\":{},\"repair\":{repair},\"landings\":{landings},\"cut\":{cut}}}",
        key.image, key.plan, key.waiting
    )
}

fn hex(bytes: &[u8]) -> String {
    bytes.iter().map(|byte| format!("{byte:02x}")).collect()
}

/// A string of JSON that may also stand inside a script element of a page.
fn quoted(text: &str) -> String {
    let mut out = String::from("\"");
    for letter in text.chars() {
        match letter {
            '"' | '\\' => out.extend(['\\', letter]),
            '<' | '>' | '&' => out.push_str(&format!("\\u{:04x}", letter as u32)),
            letter if letter < ' ' => out.push_str(&format!("\\u{:04x}", letter as u32)),
            letter => out.push(letter),
        }
    }
    out.push('"');
    out
}
