//! The order of refusal without flags, rules 63 to 77 with 70a: each clause is some rename's answer, and neighbours meet.

use crate::cases::stand_in::with_stand_in;
use crate::model::image::Image;
use crate::model::layout::{Layout, CONTENTS_LEN, ROW_LEN, SECTIONS};
use crate::model::refusal::{Refusal, Rule};
use crate::model::rename::call::Call;
use crate::model::rename::order::{all_that_apply, Of, Place, Test, ORDER};
use crate::model::walk;
use crate::model::{numbers::DONE, request};
use crate::tests::made::{all_rename_lines, all_renames};
use crate::vectors::Renaming;
use std::collections::BTreeSet;
use std::sync::LazyLock;

pub type Applying = Vec<(Place, Refusal)>;

/// All that apply to each rename, in their order.
static APPLYING: LazyLock<Vec<Applying>> = LazyLock::new(|| all_renames().map(applying).collect());

pub fn applying(Renaming { image, buffer, request, .. }: &Renaming) -> Applying {
    let view = Image::read(image);
    all_that_apply(&Call::new(image, view.as_ref(), request, buffer.len.into()))
}

#[test]
fn the_first_that_applies_is_the_answer() {
    for (all, line) in APPLYING.iter().zip(all_rename_lines()) {
        let number = all.first().map_or(DONE, |(_, refusal)| refusal.number);
        assert_eq!(line.split(' ').next(), Some(number.to_string().as_str()));
    }
}

/// Places at which the flags are asked.
pub const OF_FLAGS: [Place; 2] = [Place::Flags, Place::NewName];

/// The clauses that are asked behind the flags, each with its place, of an exchange or of any other call.
pub fn steps_of(exchange: bool) -> impl Iterator<Item = (Place, Refusal)> {
    let asked = move |of: Of, place: &Place| of.includes(exchange) && !OF_FLAGS.contains(place);
    ORDER.iter().filter_map(move |(place, test)| match test {
        Test::Parts(refusal, of, _) if asked(*of, place) => Some((*place, *refusal)),
        _ => None,
    })
}

/// Every clause of every place, as far as it can be the answer.
fn clauses() -> BTreeSet<(Place, &'static str)> {
    let of_walks = |place: Place| walk::REFUSALS.iter().map(move |refusal| (place, refusal.clause));
    let requests = request::REFUSALS.iter().map(|(refusal, _)| (Place::Request, refusal.clause));
    let steps = steps_of(false).map(|(place, refusal)| (place, refusal.clause));
    let ahead = [
        (Place::Buffer, "short buffer"),
        (Place::Layout, "bad layout"),
        (Place::Journal, "journal record"),
        (Place::Records, "other records"),
    ];
    let all = requests.chain(of_walks(Place::OldWalk)).chain(of_walks(Place::NewWalk)).chain(steps).chain(ahead);
    let of_one_path = [(Place::OldWalk, "unportable final name"), (Place::NewWalk, "final one missing")];
    all.filter(|clause| !of_one_path.contains(clause)).collect()
}

#[test]
fn every_clause_is_some_answer() {
    let answers = APPLYING.iter().filter_map(|all| all.first()).map(|(place, refusal)| (*place, refusal.clause));
    assert_eq!(answers.collect::<BTreeSet<_>>(), clauses());
}

/// The image with names and offsets as its counts want them: what would be found if the layout were good.
fn with_good_contents(image: &[u8]) -> Option<Vec<u8>> {
    let mut mended = image.to_vec();
    let contents = image.get(..CONTENTS_LEN)?;
    let count = |section: usize| {
        usize::from(contents[section * ROW_LEN + 6]) | usize::from(contents[section * ROW_LEN + 7]) << 8
    };
    let layout = Layout::of_counts(std::array::from_fn(count));
    for (section, rule) in SECTIONS.iter().enumerate() {
        let row = &mut mended[section * ROW_LEN..(section + 1) * ROW_LEN];
        row[..4].copy_from_slice(rule.name);
        row[4..6].copy_from_slice(&(layout.offsets[section] as u16).to_le_bytes());
    }
    Some(mended)
}

/// What would apply but for the first: under a bad layout, with its table mended; where new's walk is refused for its
/// final name or for a slash behind that, with a portable name or without the slash; and otherwise what applies anyway.
pub fn behind_the_first(renaming: &Renaming, all: &Applying) -> Applying {
    let mut mended = renaming.clone();
    match all.first() {
        Some((Place::Layout, _)) => match with_good_contents(&renaming.image) {
            Some(image) => mended.image = image,
            None => return vec![],
        },
        Some((Place::NewWalk, refusal)) if refusal.rule == Rule::behind(53, 'a') => {
            (mended.image, mended.request) = with_stand_in(&renaming.image, &renaming.request);
        }
        Some((Place::NewWalk, refusal)) if refusal.rule == Rule::new(60) => {
            let end = mended.request.new.path.iter().rposition(|&byte| byte != b'/').map_or(0, |last| last + 1);
            mended.request.new.path.truncate(end);
        }
        _ => return all.clone(),
    }
    applying(&mended)
}

/// The pairs of places of which the first is some rename's answer, though the second applies as well.
fn meeting_places() -> BTreeSet<(Place, Place)> {
    places_met(all_renames().zip(APPLYING.iter()))
}

pub fn places_met<'a>(renames: impl Iterator<Item = (&'a Renaming, &'a Applying)>) -> BTreeSet<(Place, Place)> {
    let mut met = BTreeSet::new();
    for (renaming, all) in renames {
        let Some(&(first, _)) = all.first() else { continue };
        let later = behind_the_first(renaming, all).into_iter().map(|(place, _)| place);
        met.extend(later.filter(|&place| place > first).map(|place| (first, place)));
    }
    met
}

/// All places in their order, but for those of the flags.
fn places() -> Vec<Place> {
    let mut places: Vec<Place> = ORDER.iter().map(|(place, _)| *place).filter(|it| !OF_FLAGS.contains(it)).collect();
    places.dedup();
    places
}

/// The one pair that cannot meet: step 11 needs an inode that is replaced, and step 12 that there is none.
const APART: [(Place, Place); 1] = [(Place::Step(11), Place::Step(12))];

#[test]
fn neighbours_in_the_order_meet() {
    let met = meeting_places();
    for pair in places().windows(2).map(|pair| (pair[0], pair[1])) {
        assert_eq!(met.contains(&pair), !APART.contains(&pair), "{pair:?}");
    }
}

/// A list that is too long comes behind everything that is asked of the buffer and the image, and ahead of both walks and
/// of step 1. No other clause of the request's applies here, since those would be told first.
#[test]
fn too_many_groups_meet_what_is_around_them() {
    let mut met = BTreeSet::new();
    for (renaming, all) in all_renames().zip(APPLYING.iter()) {
        let behind = behind_the_first(renaming, all);
        let both = all.first().into_iter().chain(&behind);
        if both.clone().any(|(_, refusal)| refusal.clause == "too many groups") {
            met.extend(both.map(|(place, _)| (all[0].0, *place)));
        }
    }
    for ahead in [Place::Buffer, Place::Layout, Place::Journal, Place::Records] {
        assert!(met.contains(&(ahead, Place::Request)), "{ahead:?}");
    }
    for after in [Place::OldWalk, Place::NewWalk, Place::Step(1)] {
        assert!(met.contains(&(Place::Request, after)), "{after:?}");
    }
}

/// Two names of one file are on one file system and not in each other; and steps that need a replaced inode,
/// or one of another type, never meet those that need none.
#[test]
fn every_two_steps_that_can_meet_do() {
    let never = [(1, 3), (1, 7), (1, 8), (1, 9), (1, 12), (1, 13), (8, 12), (10, 12), (10, 13), (11, 12), (11, 13)];
    let met = meeting_places();
    for (first, second) in (1..=13).flat_map(|first| (first + 1..=13).map(move |second| (first, second))) {
        let is_met = met.contains(&(Place::Step(first), Place::Step(second)));
        assert_eq!(is_met, !never.contains(&(first, second)), "steps {first} and {second}");
    }
}

/// Neighbouring clauses that cannot both apply: of step 8's three each needs another kind of moved or replaced, the last
/// one no directory where step 9 needs one; and of steps 11 and 12 see above.
const CLAUSES_APART: [(&str, &str); 4] = [
    ("a directory onto none", "none onto a directory"),
    ("none onto a directory", "a slash behind none"),
    ("a slash behind none", "write denied on moved"),
    ("replaced is open", "too many links"),
];

/// The clauses of the steps, two neighbours at a time. Two that answer one number for one step have no order.
pub fn neighbouring_clauses(exchange: bool) -> Vec<(&'static str, &'static str)> {
    let steps = || steps_of(exchange).map(|(_, refusal)| refusal);
    let pairs = steps().zip(steps().skip(1));
    let ordered = pairs.filter(|(one, other)| (one.rule, one.number) != (other.rule, other.number));
    ordered.map(|(one, other)| (one.clause, other.clause)).collect()
}

#[test]
fn neighbouring_clauses_of_the_steps_meet() {
    let mut met = BTreeSet::new();
    for all in APPLYING.iter().filter(|all| all.first().is_some_and(|(place, _)| *place > Place::NewWalk)) {
        met.extend(all[1..].iter().map(|(_, later)| (all[0].1.clause, later.clause)));
    }
    for pair in neighbouring_clauses(false) {
        assert_eq!(met.contains(&pair), !CLAUSES_APART.contains(&pair), "{pair:?}");
    }
}

#[test]
fn every_step_applies_alone() {
    for step in 1..=13 {
        let is_alone = |all: &&Applying| !all.is_empty() && all.iter().all(|(place, _)| *place == Place::Step(step));
        assert!(APPLYING.iter().filter(is_alone).count() >= 10, "step {step}");
    }
}
