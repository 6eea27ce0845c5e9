//! Landing on the bench tree: the rows of a rename, and any bytes.

use crate::cases::random::Random;
use crate::cases::trees::bench::bench_tree;
use crate::model::land::land;
use crate::model::numbers::{BUFFER_TOO_SHORT, DONE, INCONSISTENT, NOT_LANDABLE};
use crate::model::plan::{Row, PLAN_LEN};

fn plan_of(rows: &[Row]) -> Vec<u8> {
    let mut plan = vec![0; PLAN_LEN];
    for (number, row) in rows.iter().enumerate() {
        plan[number * 8..number * 8 + 8].copy_from_slice(&row.encode());
    }
    plan
}

/// The rows of the bench tree's third rename.
#[test]
fn the_rows_of_a_rename_land() {
    let told = [(1, 592), (2, 424), (3, 360), (3, 136), (3, 72), (3, 104), (3, 168), (4, 592)];
    let rows =
        (0u16..).zip(told).map(|(i, (group, offset))| Row { group, second: 0, len: 32, offset, body: 72 + 64 * i });
    let mut plan = plan_of(&rows.collect::<Vec<_>>());
    plan[72..].fill(7);
    for (number, (_, offset)) in (0..).zip(told) {
        let mut image = bench_tree().encode();
        let mut after = image.clone();
        after[usize::from(offset)..usize::from(offset) + 32].fill(7);
        assert_eq!(land(&mut image, &plan, number), DONE);
        assert_eq!(image, after);
    }
    assert_eq!(land(&mut bench_tree().encode(), &plan, 8), NOT_LANDABLE);
}

#[test]
fn any_bytes_are_answered_and_a_refusal_changes_nothing() {
    let mut random = Random::new(2);
    let tree = bench_tree().encode();
    for round in 0..20_000 {
        let mut image = tree.clone();
        image.truncate(if round % 5 == 0 { random.below(tree.len()) } else { tree.len() });
        let mask = [1, 3, 15, 255][round % 4];
        let plan: Vec<u8> = (0..640 + random.below(20)).map(|_| random.byte() & mask).collect();
        let before = image.clone();
        let number = land(&mut image, &plan, random.below(12) as u64);
        assert!(matches!(number, DONE | INCONSISTENT | BUFFER_TOO_SHORT | NOT_LANDABLE));
        assert!(number == DONE || image == before);
    }
}
