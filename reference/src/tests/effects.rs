//! What the cases of landing, rename and repair leave in images and buffers.

use super::made::{all_renames, all_repairs, renames_with_flags, LANDINGS, RENAMES, REPAIRS};
use crate::cases::random::Random;
use crate::cases::{rename::part as rename_part, repair::part as repair_part};
use crate::model::check::check;
use crate::model::image::Image;
use crate::model::land::land;
use crate::model::numbers::{BUFFER_TOO_SHORT, DONE, INCONSISTENT, NOT_REPAIRABLE};
use crate::model::plan::{Row, PLAN_LEN};
use crate::model::rename::call::Call;
use crate::model::rename::finished::finished;
use crate::model::rename::{order, rename};
use crate::model::repair::{repair, Answer};
use crate::vectors::{Landing, Renaming, Repairing};
use std::collections::BTreeSet;

#[test]
fn refused_landings_leave_the_image_as_it_was() {
    for Landing { image, plan, row } in &LANDINGS.cases {
        let mut after = image.clone();
        assert!(land(&mut after, plan, *row) == DONE || after == *image);
    }
}

/// The moved inode's kind, the replaced one's with whether it is freed, and whether all is within one directory.
type Shape = (u8, Option<(u8, bool)>, bool);

/// Nothing where the rename has no rows.
fn shape(Renaming { image, buffer, request, .. }: &Renaming) -> Option<Shape> {
    let view = Image::read(image);
    let call = Call::new(image, view.as_ref(), request, buffer.len.into());
    if order::first(&call).is_some() {
        return None;
    }
    let parts = call.parts()?;
    let kind = |inode: u16| parts.inode(inode).kind();
    let replaced = parts.replaced.map(|replaced| (kind(replaced.inode), parts.names_left(replaced) == 0));
    Some((kind(parts.moved.inode), replaced, parts.within_one_directory()))
}

/// Files and symlinks onto nothing or onto each other, freed or kept; directories onto nothing or an empty one;
/// each within one directory and into another.
#[test]
fn every_shape_of_a_rename_is_planned() {
    let shapes: BTreeSet<Shape> = RENAMES.cases.iter().filter_map(shape).collect();
    assert_eq!(shapes.len(), 2 * 5 * 2 + 2 * 2);
    let rows: BTreeSet<u8> = RENAMES.cases.iter().map(|case| rename_part::answer(case).0.rows).collect();
    assert_eq!(rows, BTreeSet::from([0, 6, 7, 8, 9]));
}

#[test]
fn renames_change_buffers_in_their_plan_alone_and_only_at_0() {
    for renaming in all_renames().chain(renames_with_flags()) {
        let before = renaming.buffer.bytes();
        let mut plan = before.clone();
        let number = rename(&renaming.image, &renaming.request, renaming.now, &mut plan).number;
        let changed = if number == DONE { PLAN_LEN } else { 0 };
        assert_eq!(plan[changed..], before[changed..]);
    }
}

#[test]
fn whole_plans_of_renames_lead_to_the_finished_image() {
    let random = &mut Random::new(10);
    for Renaming { image, buffer, request, now } in all_renames().chain(renames_with_flags()) {
        let mut plan = buffer.bytes();
        let answer = rename(image, request, *now, &mut plan);
        if answer.number != DONE {
            continue;
        }
        let after = finished(image, request, *now).expect("both walks are whole");
        assert_eq!(check(&after), DONE);
        let mut order: Vec<usize> = (0..answer.rows.into()).collect();
        for _ in 0..2 {
            let mut landed = image.clone();
            assert!(order.iter().all(|&row| land(&mut landed, &plan, row as u64) == DONE));
            assert_eq!(landed, after);
            random.shuffle(&mut order);
            order.sort_by_key(|&row| Row::read(&plan, row).group);
        }
    }
}

/// Nothing to do, taken back, and finished with or without another parent, a replaced inode, a freed text.
#[test]
fn every_number_of_rows_is_planned_by_repair() {
    let rows: BTreeSet<u8> = REPAIRS.cases.iter().map(|case| repair_part::answer(case).0.rows).collect();
    assert_eq!(rows, BTreeSet::from([0, 1, 4, 5, 6, 7]));
}

#[test]
fn repairs_change_buffers_only_where_they_may() {
    for Repairing { image, plan, scratch } in all_repairs() {
        let (mut plan_after, mut scratch_after) = (plan.bytes(), scratch.bytes());
        let number = repair(image, &mut plan_after, &mut scratch_after).number;
        let (of_plan, of_scratch) = match number {
            DONE => (PLAN_LEN, image.len()),
            NOT_REPAIRABLE => (0, image.len()),
            number => {
                assert!([INCONSISTENT, BUFFER_TOO_SHORT].contains(&number));
                (0, 0)
            }
        };
        assert_eq!(plan_after[of_plan..], plan.bytes()[of_plan..]);
        assert_eq!(scratch_after[of_scratch..], scratch.bytes()[of_scratch..]);
        assert!(number != NOT_REPAIRABLE || scratch_after[..of_scratch].iter().all(|&byte| byte == 0));
    }
}

#[test]
fn whole_plans_of_repairs_lead_to_the_image_that_is_shown() {
    for Repairing { image, plan, scratch } in all_repairs() {
        let (mut plan, mut scratch) = (plan.bytes(), scratch.bytes());
        let Answer { number, rows } = repair(image, &mut plan, &mut scratch);
        if number != DONE {
            continue;
        }
        let mut landed = image.clone();
        assert!((0..rows.into()).all(|row| land(&mut landed, &plan, row) == DONE));
        assert_eq!(landed, scratch[..image.len()]);
        assert_eq!(check(&landed), DONE);
    }
}
