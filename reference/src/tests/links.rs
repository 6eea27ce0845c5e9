//! The number of symlinks in one path (rules 55 to 58 and 61): both sides of its limit, and the steps that it allows.

use super::made::{all_renames, all_walks, Made, THROUGH_SYMLINKS};
use crate::model::check::check;
use crate::model::image::Image;
use crate::model::numbers::{DONE, ELOOP};
use crate::model::request::Request;
use crate::model::walk::{walk, Role, Walk};
use crate::vectors::Case;
use std::collections::BTreeSet;
use std::sync::LazyLock;

/// The limit in the words of the request: the forty-first is 40.
const MOST: usize = 40;

/// The walks of old and new, also where old's is refused.
fn both(image: &[u8], request: &Request) -> Option<[Walk; 2]> {
    let image = Image::read(image)?;
    Some([Role::Old, Role::New].map(|role| walk(&image, request, role)))
}

/// Both walks of every walk case, and of every rename that asks for walks.
static BOTH: LazyLock<Vec<[Walk; 2]>> = LazyLock::new(|| {
    let renames = all_renames().filter(|renaming| check(&renaming.image) == DONE);
    let walks = all_walks().map(|walking| (&walking.image, &walking.request));
    let all = walks.chain(renames.map(|renaming| (&renaming.image, &renaming.request)));
    all.filter_map(|(image, request)| both(image, request)).collect()
});

#[test]
fn only_one_symlink_too_many_answers_40() {
    for walk in BOTH.iter().flatten() {
        let number = walk.end.as_ref().map_or_else(|refusal| refusal.number, |_| DONE);
        assert_eq!(number == ELOOP, walk.followed > MOST, "{walk:?}");
        assert!(walk.followed <= MOST + 1);
    }
}

/// As old and as new. About both limits, this one and the one before it, something else refuses too.
#[test]
fn every_number_of_symlinks_is_followed() {
    for role in 0..2 {
        let walks = || BOTH.iter().map(|both| &both[role]);
        let whole: BTreeSet<usize> = walks().filter(|walk| walk.end.is_ok()).map(|walk| walk.followed).collect();
        assert_eq!(whole, (0..=MOST).collect());
        for count in [8, 9, 39, 40] {
            let refused = walks().filter(|walk| walk.end.is_err() && walk.followed == count);
            assert!(refused.count() > 0, "{count} symlinks");
        }
        assert!(walks().filter(|walk| walk.followed == MOST + 1).count() > 200);
    }
}

/// A text has at most 63 bytes and so 32 components, and a path 255 and so 128.
#[test]
fn a_walk_has_at_most_1408_steps() {
    assert_eq!(128 + MOST * 32, 1408);
    for role in 0..2 {
        assert_eq!(BOTH.iter().map(|both| both[role].steps).max(), Some(1408));
    }
    assert!(BOTH.iter().any(|both| both.iter().all(|walk| walk.steps == 1408 && walk.end.is_ok())));
}

/// No walk that follows fewer symlinks is as long as it could be with forty.
#[test]
fn the_steps_go_with_the_symlinks() {
    for walk in BOTH.iter().flatten() {
        assert!(usize::from(walk.steps) <= 128 + walk.followed.min(MOST) * 32, "{walk:?}");
    }
}

/// All that is random comes last. Where old's walk is whole, it may be new's that leads far.
#[test]
fn random_paths_lead_through_about_forty_symlinks() {
    let Made { cases, collection } = &*THROUGH_SYMLINKS;
    let random = collection.classes.iter().filter(|class| class.name.starts_with("random"));
    let count: usize = random.map(|class| class.numbers.len()).sum();
    let walks = cases[cases.len() - count..].iter().filter_map(|case| match case {
        Case::Walk(walking) => both(&walking.image, &walking.request),
        Case::Rename(renaming) => both(&renaming.image, &renaming.request),
        _ => None,
    });
    let farthest: Vec<usize> = walks.map(|[old, new]| old.followed.max(new.followed)).collect();
    assert_eq!(farthest.len(), count);
    assert_eq!(farthest.into_iter().collect::<BTreeSet<_>>(), (30..=MOST + 1).collect());
}

/// Joined paths of 255 and of 256 bytes are met at the fortieth symlink, and at the next the length is not asked.
#[test]
fn the_fortieth_symlink_is_refused_for_its_length_alone() {
    let clauses = |count: usize| -> BTreeSet<&str> {
        let walks = BOTH.iter().flatten().filter(|walk| walk.followed == count);
        walks.filter_map(|walk| walk.end.as_ref().err()).map(|refusal| refusal.clause).collect()
    };
    assert!(clauses(MOST).contains("long joined path"));
    assert_eq!(clauses(MOST + 1), BTreeSet::from(["too many symlinks"]));
}
