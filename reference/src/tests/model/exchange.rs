//! The exchange on the bench tree: told answers, a plan to the byte, and repairs of what each crash leaves.

use crate::cases::exchange::{EXCHANGE, NO_REPLACE};
use crate::cases::trees::bench::{bench_tree, full_bench_tree};
use crate::cases::trees::builder::Tree;
use crate::model::land::land;
use crate::model::numbers::{DONE, EACCES, EEXIST, EINVAL, ENOENT, NOT_REPAIRABLE};
use crate::model::permission::Credentials;
use crate::model::plan::{Row, PLAN_LEN};
use crate::model::rename::finished::finished;
use crate::model::rename::rename;
use crate::model::repair::{repair, Answer};
use crate::model::request::{Operand, Request, CURRENT};

const NOW: u64 = 500;

fn request(flags: u32, user: u32, old: &str, new: &str) -> Request {
    let operand = |path: &str| Operand::new(CURRENT, path.as_bytes());
    Request { who: Credentials::new(user, user), current: 0, flags, old: operand(old), new: operand(new) }
}

fn answer(tree: &Tree, flags: u32, user: u32, old: &str, new: &str) -> (u8, u8, [u16; 2]) {
    let answer = rename(&tree.encode(), &request(flags, user, old, new), NOW, &mut [7; PLAN_LEN]);
    (answer.number, answer.rows, answer.steps)
}

#[test]
fn flags_are_answered_as_told() {
    let tree = bench_tree();
    let lines = [
        (EXCHANGE, "/a/f", "/b/g", (DONE, 8, [2, 2])),
        (EXCHANGE, "/a/f", "/a/d", (DONE, 7, [2, 2])),
        (EXCHANGE, "/a", "/b", (DONE, 7, [1, 1])),
        (EXCHANGE, "/a/d", "/b/g", (DONE, 8, [2, 2])),
        (EXCHANGE, "/s", "/b", (DONE, 7, [1, 1])),
        (EXCHANGE, "/a/f", "/b/h", (DONE, 0, [2, 2])),
        (EXCHANGE, "/a/f", "/b/k", (ENOENT, 0, [2, 2])),
        (EXCHANGE, "/a/f", "/k/", (ENOENT, 0, [2, 1])),
        (EXCHANGE, "/a", "/a/d", (EINVAL, 0, [1, 2])),
        (EXCHANGE, "/a/d", "/a", (EINVAL, 0, [2, 1])),
        (NO_REPLACE, "/a/f", "/b/g", (EEXIST, 0, [2, 2])),
        (NO_REPLACE, "/a/f", "/b/h", (EEXIST, 0, [2, 2])),
        (NO_REPLACE, "/a/f", "/a/k", (DONE, 6, [2, 2])),
        (3, "/a/f", "/b/g", (EINVAL, 0, [0, 0])),
        (4, "/a/f", "/b/g", (EINVAL, 0, [0, 0])),
        (1 << 31, "", "", (EINVAL, 0, [0, 0])),
    ];
    for (flags, old, new, told) in lines {
        assert_eq!(answer(&tree, flags, 100, old, new), told, "{flags}: {old} and {new}");
    }
    assert_eq!(answer(&tree, EXCHANGE, 200, "/a/f", "/b/g"), (EACCES, 0, [2, 2]));
    assert_eq!(answer(&full_bench_tree(), EXCHANGE, 100, "/a/f", "/b/g"), (DONE, 8, [2, 2]));
}

fn plan() -> Vec<u8> {
    let mut plan = vec![7; PLAN_LEN];
    let answer = rename(&bench_tree().encode(), &request(EXCHANGE, 100, "/a/d", "/b/g"), NOW, &mut plan);
    assert_eq!(answer.rows, 8);
    plan
}

/// Inode 5, the directory a/d, and inode 4, the file b/g: rows by group and offset, and what their bodies change.
#[test]
fn a_plan_has_the_rows_that_are_told() {
    let told = [(1, 592), (2, 392), (2, 424), (3, 200), (3, 72), (3, 104), (3, 168), (4, 592)];
    let plan = plan();
    for (number, (group, offset)) in (0..).zip(told) {
        let row = Row { group, second: 0, len: 32, offset, body: 72 + 64 * number as u16 };
        assert_eq!(Row::read(&plan, number), row);
    }
    let record = b"\x01\x07\x04\0\x05\0\x05\0\x04\0\x01\0\xff\xff\0\0\xf4\x01\0\0\0\0\0\0";
    assert_eq!((&plan[72..96], &plan[96..136]), (&record[..], &[0; 40][..]));
    let mut after = bench_tree().encode();
    let bytes = [
        (394, 4), // a/d leads to inode 4
        (426, 5), // b/g leads to inode 5
        (214, 2), // whose parent is b
        (84, 2),  // a has no subdirectory any more
        (116, 3), // and b has one
    ];
    bytes.iter().for_each(|&(at, value)| after[at] = value);
    // The times of the change of all four, and of the modification of both parents.
    for at in [224, 192, 96, 88, 128, 120] {
        after[at..at + 2].copy_from_slice(&[0xf4, 1]);
    }
    let mut landed = bench_tree().encode();
    (0..8).for_each(|row| assert_eq!(land(&mut landed, &plan, row), DONE));
    assert_eq!(landed, after);
    assert_eq!(finished(&bench_tree().encode(), &request(EXCHANGE, 100, "/a/d", "/b/g"), NOW), Some(after));
}

/// The rows of the plan but for its first, whichever of them have landed.
#[test]
fn an_exchange_is_finished_once_its_record_has_landed() {
    let (plan, before) = (plan(), bench_tree().encode());
    let finished = finished(&before, &request(EXCHANGE, 100, "/a/d", "/b/g"), NOW);
    for chosen in 0..1 << 6 {
        let mut image = before.clone();
        let landed = [0].into_iter().chain((1..7).filter(|row| chosen & 1 << (row - 1) != 0));
        landed.for_each(|row| assert_eq!(land(&mut image, &plan, row), DONE));
        let (mut repairing, mut scratch) = (vec![7; PLAN_LEN], vec![0; image.len()]);
        assert_eq!(repair(&image, &mut repairing, &mut scratch), Answer { number: DONE, rows: 7 });
        assert_eq!(Some(&scratch), finished.as_ref());
        assert_eq!(repairing[..8], [2, 0, 32, 0, 136, 1, 72, 0]);
        (0..7).for_each(|row| assert_eq!(land(&mut image, &repairing, row), DONE));
        assert_eq!(image, scratch);
    }
}

/// Numbers of the journal record on the bench tree: the two slots, moved, replaced, from, text.
#[test]
fn records_of_an_exchange_that_do_not_fit_are_refused() {
    const NONE: u16 = 65_535;
    let repaired = |numbers: [u16; 6], kind: u8| {
        let mut image = bench_tree().encode();
        (image[592], image[593]) = (1, kind);
        for (i, number) in numbers.into_iter().enumerate() {
            image[594 + 2 * i..596 + 2 * i].copy_from_slice(&number.to_le_bytes());
        }
        repair(&image, &mut [0; PLAN_LEN], &mut vec![0; image.len()])
    };
    let right = [4, 5, 5, 4, 1, NONE];
    assert_eq!(repaired(right, 7), Answer { number: DONE, rows: 7 });
    assert_eq!(repaired([4, 5, 4, 5, 1, NONE], 7), Answer { number: DONE, rows: 7 });
    assert_eq!(repaired([4, 3, 5, 3, 1, NONE], 7), Answer { number: DONE, rows: 6 });
    let wrong = [
        [8, 5, 5, 4, 1, NONE],
        [4, 8, 5, 4, 1, NONE],
        [4, 4, 5, 4, 1, NONE],
        [4, 7, 5, 4, 1, NONE], // slot 7 is free
        [4, 6, 5, 4, 1, NONE], // slot 6 leads to inode 3
        [4, 5, 0, 4, 1, NONE],
        [4, 5, 5, 0, 1, NONE],
        [4, 5, 5, 5, 1, NONE],
        [4, 5, 5, NONE, 1, NONE],
        [4, 5, 7, 4, 1, NONE],
        [4, 5, 5, 4, 0, NONE], // slot 4 is in inode 1
        [4, 5, 5, 4, 4, NONE],
        [4, 5, 5, 4, 7, NONE],
        [4, 5, 5, 4, 1, 0],
        [4, 5, 5, 4, 1, 1],
        [0, 4, 1, 5, 0, NONE], // slot 4 is in inode 1, which is moved
    ];
    for numbers in wrong {
        assert_eq!(repaired(numbers, 7).number, NOT_REPAIRABLE, "{numbers:?}");
    }
    for kind in (1..=255).filter(|kind| *kind != 7) {
        assert_eq!(repaired(right, kind).number, NOT_REPAIRABLE, "kind {kind}");
    }
}
