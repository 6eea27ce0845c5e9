//! Every rename of small trees, and some of large ones, survives every crash.

mod exchanges;
mod wrong;
mod wrong_exchanges;

use super::*;
use crate::cases::random::Random;
use crate::cases::rename::{limits, random_renames, steps, RenameCase};
use crate::cases::stand_in::with_stand_in;
use crate::cases::trees::bench::{bench_tree, full_bench_tree};
use crate::cases::trees::builder::Tree;
use crate::cases::trees::for_crashes::{crash_tree, NEW, OLD, OWNER};
use crate::cases::trees::generated::{generate, small_aim, DEEP, FULL};
use crate::cases::trees::samples::every_state;
use crate::cases::walk;
use crate::model::image::Image;
use crate::model::permission::{Credentials, SUPERUSER};
use crate::model::rename::parts::Parts;
use crate::model::repair::repair;
use crate::model::request::{Operand, Request, CURRENT};
use crate::model::walk::walk_both;
use std::collections::BTreeSet;

const NOW: u64 = 103;

fn request(old: &str, new: &str) -> Request {
    let operand = |path: &str| Operand::new(CURRENT, path.as_bytes());
    Request { who: Credentials::new(OWNER, OWNER), current: 0, flags: 0, old: operand(old), new: operand(new) }
}

fn planned(tree: &Tree, old: &str, new: &str) -> PlannedRename {
    PlannedRename::new(&tree.encode(), &request(old, new), NOW).expect("the rename has rows")
}

/// Explores them all, none of which may have a breach; gives how many states were seen.
fn explore_all(name: &str, all: impl IntoIterator<Item = PlannedRename>) -> usize {
    let (mut renames, mut images, mut states) = (0, 0, 0);
    for planned in all {
        let explored =
            explore(&planned, repair).unwrap_or_else(|breach| panic!("{name}, rename {renames}: {breach:?}"));
        renames += 1;
        images += explored.images;
        states += explored.states;
    }
    println!("{name}: {renames} renames, {images} images, {states} states");
    states
}

/// New's final name is made portable, so that more of them have rows.
fn of_cases(cases: impl IntoIterator<Item = RenameCase>) -> impl Iterator<Item = PlannedRename> {
    cases.into_iter().filter_map(|case| {
        let (image, request) = with_stand_in(&case.image, &case.request);
        PlannedRename::new(&image, &request, case.now)
    })
}

#[test]
fn every_rename_of_the_bench_trees_survives_every_crash() {
    let names = ["/a", "/b", "/s", "/a/f", "/a/d", "/b/g", "/b/h", "/k", "/a/k", "/b/k", "/a/d/k", "/s/k"];
    for tree in [bench_tree(), full_bench_tree()] {
        let image = tree.encode();
        let pairs = names.iter().flat_map(|old| names.iter().map(move |new| (old, new)));
        let renames = pairs.filter_map(|(old, new)| PlannedRename::new(&image, &request(old, new), NOW));
        assert!(explore_all("bench tree", renames) > 4_000);
    }
}

/// Files and symlinks onto nothing or onto each other, freed or kept; directories onto nothing or an empty one;
/// each within one directory and into another.
#[test]
fn every_shape_of_a_rename_survives_every_crash() {
    let image = crash_tree().encode();
    let pairs = || OLD.iter().flat_map(|old| NEW.iter().map(move |new| request(old, new)));
    let renames = pairs().filter_map(|request| PlannedRename::new(&image, &request, NOW));
    assert!(explore_all("crash tree", renames) > 10_000);
    let view = Image::read(&image).expect("the layout is right");
    let shape = |request: Request| {
        PlannedRename::new(&image, &request, NOW)?;
        let parts = Parts::new(&view, &request, walk_both(&view, &request).found?)?;
        let kind = |inode: u16| parts.inode(inode).kind();
        let replaced = parts.replaced.map(|replaced| (kind(replaced.inode), parts.names_left(replaced) == 0));
        Some((kind(parts.moved.inode), replaced, parts.within_one_directory()))
    };
    let shapes: BTreeSet<_> = pairs().filter_map(shape).collect();
    assert_eq!(shapes.len(), 2 * 5 * 2 + 2 * 2);
}

#[test]
fn the_scenes_of_the_rename_tree_survive_every_crash() {
    let shapes = steps::cases(&mut Random::new(12)).into_iter().filter(|case| case.class == "shapes of a rename");
    assert!(explore_all("rename tree", of_cases(shapes.step_by(3))) > 25_000);
}

#[test]
fn renames_at_the_limit_of_links_survive_every_crash() {
    explore_all("many names", of_cases(limits::names()));
    explore_all("many subdirectories", of_cases(limits::subdirectories()));
}

#[test]
fn random_renames_survive_every_crash() {
    let random = &mut Random::new(13);
    let mut trees = vec![every_state()];
    trees.extend((0..30).map(|seed| generate(small_aim(&mut Random::new(700 + seed)), seed)));
    trees.iter_mut().for_each(|tree| walk::random_walks::set_modes_and_texts(tree, random));
    let cases: Vec<RenameCase> = trees.iter().flat_map(|tree| random_renames::cases(tree, 40, random)).collect();
    assert!(explore_all("random trees", of_cases(cases)) > 100_000);
}

#[test]
fn renames_on_full_images_survive_every_crash() {
    let random = &mut Random::new(14);
    for aim in [FULL, DEEP] {
        let tree = generate(aim, 6);
        let image = tree.encode();
        let any = || {
            let (old, new) =
                (random_renames::straight(&tree, false, random), random_renames::straight(&tree, false, random));
            let request = Request { who: Credentials::new(SUPERUSER, 0), current: 0, flags: 0, old, new };
            PlannedRename::new(&image, &request, NOW)
        };
        explore_all("full", std::iter::repeat_with(any).flatten().take(3));
    }
}

/// Repair's rows are the rename's own, whichever of those have landed; but it never writes the new entry.
#[test]
fn the_rows_of_a_repair_are_those_of_the_rename() {
    let image = crash_tree().encode();
    for (old, new) in OLD.iter().flat_map(|old| NEW.iter().map(move |new| (old, new))) {
        let Some(planned) = PlannedRename::new(&image, &request(old, new), NOW) else {
            continue;
        };
        let rest = 2..usize::from(planned.rows) - 1;
        for chosen in 0..1 << rest.len() {
            let landed = [0, 1].into_iter().chain(rest.clone().filter(|row| chosen & 1 << (row - 2) != 0));
            let (mut plan, mut scratch) = ([0xa5; PLAN_LEN], vec![0; image.len()]);
            let answer = repair(&planned.after(landed), &mut plan, &mut scratch);
            assert_eq!(answer, Answer { number: DONE, rows: planned.rows - 2 });
            assert_eq!(scratch, planned.finished);
            for row in 2..planned.rows.into() {
                let (own, other) = (Row::read(&planned.plan, row), Row::read(&plan, row - 2));
                assert_eq!(Row { body: own.body - 128, ..own }, other);
                assert_eq!(planned.plan[72 + 64 * row..][..64], plan[72 + 64 * (row - 2)..][..64]);
            }
        }
    }
}
