//! Rules 42 and 46 to 60, with 53a: each refuses some request, as old and as new.

use crate::model::image::Image;
use crate::model::refusal::{Refusal, Rule};
use crate::model::request;
use crate::model::walk::{walk, Role, REFUSALS};
use crate::tests::made::all_walks;
use crate::vectors::Walking;
use std::collections::BTreeSet;

/// What refuses a request, and which of the paths it is about; nothing where both walks are whole.
fn refusal(Walking { image, request }: &Walking) -> Option<(Refusal, &'static str)> {
    let image = Image::read(image).expect("the layout is right");
    if let Some(refusal) = request.refusal(&image) {
        return Some((refusal, "both"));
    }
    match walk(&image, request, Role::Old).end {
        Err(refusal) => Some((refusal, "old")),
        Ok(_) => walk(&image, request, Role::New).end.err().map(|refusal| (refusal, "new")),
    }
}

/// New's final name may be missing, and old's need not be portable; all else is asked of both paths. Walk cases have no
/// groups of which there could be too many: that is for the renames to show.
#[test]
fn every_refusal_of_a_walk_is_given() {
    let given: BTreeSet<_> = all_walks().filter_map(refusal).collect();
    let of_paths = REFUSALS.iter().flat_map(|&refusal| [(refusal, "old"), (refusal, "new")]);
    let of_requests = request::REFUSALS.iter().map(|&(refusal, _)| (refusal, "both"));
    let mut expected: BTreeSet<_> = of_paths.chain(of_requests).collect();
    let of_one_path = [(Rule::behind(53, 'a'), "old"), (Rule::new(59), "new")];
    expected.retain(|&(it, of)| !of_one_path.contains(&(it.rule, of)) && it.clause != "too many groups");
    assert_eq!(given, expected);
}
