//! The program that the library's times are compared with: it answers as the model, to every byte.

use super::made::{all_renames, all_repairs, renames_with_flags, CHECKS, CROWDED, LANDINGS};
use crate::cases::damage::random_changes::{flip, shuffle};
use crate::cases::damage::subject::Subject;
use crate::cases::random::Random;
use crate::cases::rename::random_renames;
use crate::cases::repair::{foreign_journals, full_size};
use crate::cases::trees::builder::Tree;
use crate::cases::trees::generated::{generate, small_aim, DEEP, DEEPEST, FULL, SPARSE};
use crate::cases::trees::samples::{every_state, near_names, samples};
use crate::cases::walk::random_walks::set_modes_and_texts;
use crate::model::layout::{Layout, CONTENTS_LEN, JOURNAL};
use crate::model::plan::PLAN_LEN;
use crate::model::request::Request;
use crate::vectors::{Buffer, Scratch};
use crate::{model, plain};

const PLAN: Buffer = Buffer { len: PLAN_LEN as u16 + 5, fill: 0xa5 };

fn assert_check(image: &[u8]) {
    assert_eq!(plain::check(image), model::check::check(image));
}

fn assert_rename(image: &[u8], request: &Request, now: u64, buffer: Buffer) {
    let [mut plan, mut wanted] = [buffer.bytes(), buffer.bytes()];
    let answer = model::rename::rename(image, request, now, &mut wanted);
    assert_eq!(plain::rename(image, request, now, &mut plan), answer, "{request:?}");
    assert!(plan == wanted, "the plans differ: {request:?}");
}

fn assert_repair(image: &[u8], buffer: Buffer, scratch: Scratch) {
    let [mut plan, mut wanted_plan] = [buffer.bytes(), buffer.bytes()];
    let [mut outcome, mut wanted_outcome] = [scratch.bytes(), scratch.bytes()];
    let answer = model::repair::repair(image, &mut wanted_plan, &mut wanted_outcome);
    assert_eq!(plain::repair(image, &mut plan, &mut outcome), answer);
    assert!(plan == wanted_plan, "the plans differ");
    assert!(outcome == wanted_outcome, "the scratches differ");
}

fn small_tree(seed: u64) -> Tree {
    generate(small_aim(&mut Random::new(seed)), seed)
}

#[test]
fn the_stored_images_are_answered_alike() {
    CHECKS.cases.iter().chain(&CROWDED.cases).for_each(|image| assert_check(image));
}

#[test]
fn the_stored_renames_are_answered_alike() {
    for renaming in all_renames().chain(renames_with_flags()) {
        assert_rename(&renaming.image, &renaming.request, renaming.now, renaming.buffer);
    }
}

#[test]
fn the_stored_repairs_are_answered_alike() {
    all_repairs().for_each(|repairing| assert_repair(&repairing.image, repairing.plan, repairing.scratch));
}

#[test]
fn the_stored_landings_are_answered_alike() {
    for landing in &LANDINGS.cases {
        let [mut image, mut wanted] = [landing.image.clone(), landing.image.clone()];
        let number = model::land::land(&mut wanted, &landing.plan, landing.row);
        assert_eq!(plain::land(&mut image, &landing.plan, landing.row), number);
        assert!(image == wanted, "the images differ");
    }
}

/// Few changes of consistent trees: of those to bytes most lead to a fault, of the others many to none.
#[test]
fn changed_images_are_answered_alike() {
    let random = &mut Random::new(21);
    let small = (0..60).map(|seed| (small_tree(seed), 150));
    let full = [FULL, SPARSE, DEEP, DEEPEST].map(|aim| (generate(aim, 11), 150));
    let of_names = samples().into_iter().map(|(_, tree)| (tree, 150)).chain([(near_names(), 500)]);
    for (tree, count) in small.chain(full).chain(of_names) {
        let subject = Subject::new(tree);
        for _ in 0..count {
            assert_check(&flip(&subject, random));
            assert_check(&shuffle(&subject, random));
        }
    }
}

/// Records of any bytes, with small numbers so that they often name each other; and any length.
#[test]
fn any_bytes_are_answered_alike() {
    let random = &mut Random::new(22);
    let tree = every_state().encode();
    let journal = Layout::read(&tree).expect("the layout is right").offsets[JOURNAL];
    for round in 0..2_000 {
        let mut image = tree.clone();
        let mask = [1, 3, 15, 255][round % 4];
        image[CONTENTS_LEN + random.below(journal - CONTENTS_LEN)..journal].fill_with(|| random.byte() & mask);
        assert_check(&image);
        assert_repair(&image, PLAN, Scratch { len: image.len() as u32, fill: 7 });
    }
    for len in 0..tree.len() + 3 {
        let mut image = tree.clone();
        image.resize(len, 0);
        assert_check(&image);
        assert_repair(&image, PLAN, Scratch { len: tree.len() as u32, fill: 7 });
    }
}

/// Requests of every kind, a third of them on an image that has been changed.
#[test]
fn random_renames_are_answered_alike() {
    let random = &mut Random::new(23);
    let small = (100..160).map(|seed| (small_tree(seed), 50));
    for (mut tree, count) in small.chain([(generate(SPARSE, 12), 60), (generate(FULL, 12), 60)]) {
        set_modes_and_texts(&mut tree, random);
        for case in random_renames::cases(&tree, count, random) {
            assert_rename(&case.image, &case.request, case.now, PLAN);
            if random.one_in(3) {
                assert_rename(&flip(&Subject::new(tree.clone()), random), &case.request, case.now, PLAN);
            }
        }
    }
}

/// Journal records that no rename wrote, and images of full size on the way of one.
#[test]
fn random_repairs_are_answered_alike() {
    let random = &mut Random::new(24);
    let (full, deep) = (generate(FULL, 13), generate(DEEP, 13));
    let mut cases: Vec<_> =
        foreign_journals::trees().iter().flat_map(|(tree, _)| foreign_journals::cases(tree, 400, random)).collect();
    for tree in [full, deep] {
        let planned = full_size::any_rename(&tree, random);
        cases.extend(full_size::cases(&tree, &planned, random));
    }
    for case in cases {
        assert_repair(&case.image, PLAN, Scratch { len: case.image.len() as u32 + 3, fill: 7 });
    }
}
