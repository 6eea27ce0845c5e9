//! Plans of random renames lead to the finished image.

use crate::cases::random::Random;
use crate::cases::stand_in::with_stand_in;
use crate::cases::trees::bench::bench_tree;
use crate::cases::trees::generated::{generate, small_aim};
use crate::cases::trees::samples::samples;
use crate::cases::walk::random_walks;
use crate::model::check::check;
use crate::model::land::land;
use crate::model::numbers::DONE;
use crate::model::plan::{Row, PLAN_LEN};
use crate::model::rename::finished::finished;
use crate::model::rename::rename;

/// Lands every row of a plan; those of one group in any order.
fn landed(before: &[u8], plan: &[u8], rows: u8, random: &mut Random) -> Vec<u8> {
    let mut order: Vec<usize> = (0..rows.into()).collect();
    random.shuffle(&mut order);
    order.sort_by_key(|&number| Row::read(plan, number).group);
    let mut image = before.to_vec();
    for number in order {
        assert_eq!(land(&mut image, plan, number as u64), DONE);
    }
    image
}

#[test]
fn whole_plans_lead_to_the_finished_image_in_every_order() {
    let random = &mut Random::new(6);
    let mut trees: Vec<_> = samples().into_iter().map(|(_, tree)| tree).chain([bench_tree()]).collect();
    trees.extend((0..30).map(|seed| generate(small_aim(&mut Random::new(seed)), seed)));
    trees.iter_mut().for_each(|tree| random_walks::set_modes_and_texts(tree, random));
    let mut planned = 0;
    let cases: Vec<_> = trees.iter().flat_map(|tree| random_walks::cases(tree, 60, random)).collect();
    for case in cases {
        // New's final name is made portable, so that more of them have rows.
        let (before, request) = with_stand_in(&case.tree.encode(), &case.request);
        let mut plan = [9; PLAN_LEN];
        let answer = rename(&before, &request, 77, &mut plan);
        if answer.number != DONE {
            continue;
        }
        let after = finished(&before, &request, 77).expect("both walks are whole");
        assert_eq!(check(&after), DONE);
        for _ in 0..4 {
            assert_eq!(landed(&before, &plan, answer.rows, random), after);
        }
        planned += usize::from(answer.rows != 0);
    }
    assert!(planned > 100, "{planned} renames have rows");
}
