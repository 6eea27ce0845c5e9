//! The rename's scenes asked with flags. What is moved, replaced and in the way tells which steps apply to an exchange,
//! too; and an exchange is the same the other way round, so that each of its steps is there on either side.

use super::{BETWEEN, EXCHANGE, NO_REPLACE, WITHIN};
use crate::cases::random::Random;
use crate::cases::rename::scene::{Place, Replaced, Scene};
use crate::cases::rename::{RenameCase, RenameCases, Told};
use crate::cases::trees::builder::Tree;
use crate::cases::trees::for_renames::rename_tree;
use crate::model::numbers::{DONE, EEXIST, EMLINK, ENOENT, EPERM};
use crate::vectors::edits;
use std::collections::{BTreeMap, BTreeSet};

const TRIES: usize = 120_000;

/// How many scenes of a kind are taken.
const OF_ONE_STEP: usize = 26;
const OF_TWO_STEPS: usize = 10;
const OF_A_SHAPE: usize = 6;
const OF_A_REFUSAL: usize = 12;

/// The steps that are asked of an exchange.
const ASKED: [u8; 9] = [1, 2, 3, 4, 5, 6, 7, 9, 12];

/// The steps that apply, with the number of each. A rename's step 12 needs that nothing is replaced, so none is here.
fn steps(scene: &Scene) -> Vec<(u8, u8)> {
    let mut steps = scene.steps();
    steps.retain(|(step, _)| ASKED.contains(step));
    if scene.into_is_sticky() && !steps.contains(&(6, EPERM)) {
        steps.push((6, EPERM));
    }
    if scene.place == Place::Wide && scene.moves_a_directory() && !scene.replaces_a_directory() {
        steps.push((12, EMLINK));
    }
    steps.sort_unstable();
    steps
}

/// The scene as an exchange, or as one from its new name to its old one.
fn exchange(class: &'static str, scene: &Scene, home: &Tree, turned: bool) -> RenameCase {
    let mut case = scene.case(class, home);
    let rows = if scene.place == Place::SameParent { WITHIN } else { BETWEEN };
    let first = steps(scene).first().map(|(_, number)| *number);
    let (number, rows) = first.map_or((DONE, rows), |number| (number, 0));
    let [old, new] = case.told.and_then(|told| told.steps).expect("a scene tells its counts");
    case.request.flags = EXCHANGE;
    if turned {
        std::mem::swap(&mut case.request.old, &mut case.request.new);
    }
    case.told = Some(Told { number, rows, steps: Some(if turned { [new, old] } else { [old, new] }) });
    case
}

struct Stock {
    tree: Tree,
    home: Vec<u8>,
    scenes: Vec<Scene>,
}

impl Stock {
    fn new(random: &mut Random) -> Stock {
        let scenes: BTreeSet<Scene> = (0..TRIES).map(|_| Scene::any(random)).filter(Scene::is_possible).collect();
        let mut scenes: Vec<Scene> = scenes.into_iter().collect();
        random.shuffle(&mut scenes);
        scenes.sort_by_key(|scene| steps(scene).len());
        Stock { tree: rename_tree(), home: rename_tree().encode(), scenes }
    }

    fn is_near(&self, case: &RenameCase) -> bool {
        edits(&self.home, &case.image).is_some()
    }

    /// The first exchanges that are wanted, every other one turned.
    fn take(&self, class: &'static str, count: usize, wanted: impl Fn(&Scene, &[u8]) -> bool) -> RenameCases {
        let existing = self.scenes.iter().filter(|scene| scene.replaced != Replaced::Nothing);
        let numbered = |scene: &&Scene| steps(scene).iter().map(|(step, _)| *step).collect::<Vec<u8>>();
        let chosen = existing.filter(|scene| wanted(scene, &numbered(scene)));
        let cases = chosen.enumerate().map(|(turn, scene)| exchange(class, scene, &self.tree, turn % 2 == 1));
        cases.filter(|case| self.is_near(case)).take(count).collect()
    }

    /// A few of every shape that no step applies to.
    fn of_every_shape(&self, class: &'static str) -> RenameCases {
        let shape = |scene: &Scene| (scene.moved, scene.replaced, scene.place);
        let plain = self.scenes.iter().filter(|scene| steps(scene).is_empty() && scene.replaced != Replaced::Nothing);
        let shapes: BTreeSet<_> = plain.map(shape).collect();
        let of_shape = |of| self.take(class, OF_A_SHAPE, |scene, steps| steps.is_empty() && shape(scene) == of);
        shapes.into_iter().flat_map(of_shape).collect()
    }

    /// Scenes as they stand, with other flags: a few for each number that a rename answers.
    fn flagged(&self, flags: u32, existing: bool, class: &'static str) -> RenameCases {
        let mut taken = BTreeMap::new();
        let mut cases = vec![];
        for scene in self.scenes.iter().filter(|scene| (scene.replaced != Replaced::Nothing) == existing) {
            let mut case = scene.case(class, &self.tree);
            let told = case.told.expect("a scene tells its answer");
            let count = taken.entry((told.number, told.rows)).or_insert(0);
            if *count < OF_A_REFUSAL && self.is_near(&case) {
                *count += 1;
                case.request.flags = flags;
                cases.push(case);
            }
        }
        cases
    }
}

fn answered(cases: RenameCases, number: u8) -> RenameCases {
    let told = |told: Option<Told>| told.map(|told| Told { number, rows: 0, ..told });
    cases.into_iter().map(|case| RenameCase { told: told(case.told), ..case }).collect()
}

/// Exchanges: every step alone, every two steps that can meet, and none.
fn exchanges(stock: &Stock) -> RenameCases {
    let alone = ASKED.iter().flat_map(|&step| stock.take("one step applies", OF_ONE_STEP, |_, steps| steps == [step]));
    let pairs = ASKED.iter().flat_map(|first| ASKED.iter().map(move |second| (first, second)));
    let meeting = pairs.filter(|(first, second)| first < second).flat_map(|(first, second)| {
        let wanted = |_: &Scene, steps: &[u8]| steps.first() == Some(first) && steps.contains(second);
        stock.take("two steps meet", OF_TWO_STEPS, wanted)
    });
    alone.chain(meeting).chain(stock.of_every_shape("shapes of an exchange")).collect()
}

/// Without flags, and with no-replace where new is missing, a rename answers as ever. Where new exists, no-replace
/// answers ahead of every step, and where it is missing, exchange does.
pub fn cases(random: &mut Random) -> RenameCases {
    let stock = Stock::new(random);
    let others = [
        stock.flagged(0, true, "no flags"),
        stock.flagged(0, false, "no flags"),
        stock.flagged(NO_REPLACE, false, "no-replace, new is missing"),
        answered(stock.flagged(NO_REPLACE, true, "no-replace, new exists"), EEXIST),
        answered(stock.flagged(EXCHANGE, false, "exchange, new is missing"), ENOENT),
    ];
    exchanges(&stock).into_iter().chain(others.concat()).collect()
}
