//! Scenes by the steps that apply in them: each step alone, every two that can meet, and none.

use super::scene::{Moved, Place, Replaced, Scene};
use super::RenameCases;
use crate::cases::random::Random;
use crate::cases::trees::builder::Tree;
use crate::cases::trees::for_renames::rename_tree;
use crate::vectors::edits;
use std::collections::BTreeSet;

/// How many scenes are looked at, and how many of a kind are taken, or a few more.
const TRIES: usize = 200_000;
const OF_ONE_STEP: usize = 24;
const OF_TWO_STEPS: usize = 12;
const OF_NO_STEP: usize = 300;

type Shape = (Moved, Replaced, Place);

/// Scenes of every kind with the steps that apply, those with the fewest steps first.
struct Stock {
    tree: Tree,
    home: Vec<u8>,
    scenes: Vec<(Scene, Vec<u8>)>,
}

impl Stock {
    fn new(random: &mut Random) -> Stock {
        let scenes: BTreeSet<Scene> = (0..TRIES).map(|_| Scene::any(random)).filter(Scene::is_possible).collect();
        let steps = |scene: Scene| (scene, scene.steps().into_iter().map(|(step, _)| step).collect());
        let mut scenes: Vec<(Scene, Vec<u8>)> = scenes.into_iter().map(steps).collect();
        random.shuffle(&mut scenes);
        scenes.sort_by_key(|(_, steps)| steps.len());
        Stock { tree: rename_tree(), home: rename_tree().encode(), scenes }
    }

    /// The first scenes that are wanted, but for those that are too far from the rename tree to be stored as edits.
    fn take(&self, class: &'static str, count: usize, wanted: impl Fn(&Scene, &[u8]) -> bool) -> RenameCases {
        let chosen = self.scenes.iter().filter(|(scene, steps)| wanted(scene, steps));
        let cases = chosen.map(|(scene, _)| scene.case(class, &self.tree));
        cases.filter(|case| edits(&self.home, &case.image).is_some()).take(count).collect()
    }

    /// Scenes in which just these steps apply, two or more of every shape.
    fn of_every_shape(&self, class: &'static str, count: usize, wanted: &[u8]) -> RenameCases {
        let shape = |scene: &Scene| -> Shape { (scene.moved, scene.replaced, scene.place) };
        let scenes = self.scenes.iter().filter(|(_, steps)| steps == wanted);
        let shapes: BTreeSet<Shape> = scenes.map(|(scene, _)| shape(scene)).collect();
        let each = count.div_ceil(shapes.len()).max(2);
        let of_shape = |of: Shape| self.take(class, each, |scene, steps| steps == wanted && shape(scene) == of);
        shapes.into_iter().flat_map(of_shape).collect()
    }

    /// Scenes that the first of two steps answers, though the second applies as well.
    fn meeting(&self, first: u8, second: u8) -> RenameCases {
        let wanted = |_: &Scene, steps: &[u8]| steps.first() == Some(&first) && steps.contains(&second);
        self.take("two steps meet", OF_TWO_STEPS, wanted)
    }
}

/// Every step alone; every two steps that can meet, the earlier one being the answer; and renames that no step
/// applies to, though most are near one.
pub fn cases(random: &mut Random) -> RenameCases {
    let stock = Stock::new(random);
    let alone = (1..=13).flat_map(|step| stock.of_every_shape("one step applies", OF_ONE_STEP, &[step]));
    let pairs = (1..=13).flat_map(|first| (first + 1..=13).map(move |second| (first, second)));
    let meeting = pairs.flat_map(|(first, second)| stock.meeting(first, second));
    alone.chain(meeting).chain(stock.of_every_shape("shapes of a rename", OF_NO_STEP, &[])).collect()
}

/// A scene for each of the steps, in which it applies alone.
pub fn one_of_each_step(class: &'static str, random: &mut Random) -> RenameCases {
    let stock = Stock::new(random);
    (1..=13).flat_map(|step| stock.take(class, 1, |_, steps| *steps == [step])).collect()
}
