//! All cases of repair: which images, and how many of each kind.

use crate::cases::damage::subject::Subject;
use crate::cases::random::Random;
use crate::cases::repair::{
    buffers, clear_journal, crashes, damaged_images, foreign_journals, full_size, journal_form, journal_numbers,
    limits, times, RepairCases,
};
use crate::cases::trees::bench::bench_tree;
use crate::cases::trees::for_crashes::crash_tree;
use crate::cases::trees::generated::{generate, DEEP, FULL};
use crate::cases::Collection;
use crate::model::repair::{repair, Answer};
use crate::vectors::{checksum, Buffer, Repairing, Scratch, LONGEST_SCRATCH};

/// How many random changes each image on the way gets.
const CHANGES: usize = 45;

/// Buffers that are long enough, for cases that ask for no other; the scratch's by what it is longer than the image.
const PLANS: [u16; 5] = [648, 649, 648, 700, 1024];
const MORE: [usize; 4] = [0, 1, 0, 37];

/// Makes every case. It panics where a case is not answered as its table tells.
pub fn all() -> Collection {
    let mut collection = Collection::default();
    let random = &mut Random::new(16);
    let bench = bench_tree().encode();
    collection.add_repairs(&bench, crashes::on_the_bench());
    collection.add_repairs(&bench, clear_journal::consistent());
    collection.add_repairs(&bench, clear_journal::damaged(&Subject::new(bench_tree()), random));
    let on_the_crash_tree = [
        crashes::on_the_crash_tree(),
        journal_form::cases(),
        journal_numbers::cases(),
        damaged_images::of_the_layout(random),
        damaged_images::of_the_records(random),
        damaged_images::of_other_records(),
        times::cases(),
        buffers::cases(),
        damaged_images::by_chance(CHANGES, random),
    ];
    collection.add_repairs(&crash_tree().encode(), on_the_crash_tree.concat());
    collection.add_repairs(&bench, limits::names());
    collection.add_repairs(&bench, limits::subdirectories());
    for (tree, count) in foreign_journals::trees() {
        collection.add_repairs(&tree.encode(), foreign_journals::cases(&tree, count, random));
    }
    for aim in [FULL, DEEP] {
        let tree = generate(aim, 7);
        let planned = full_size::any_rename(&tree, random);
        collection.add_repairs(&full_size::home(&planned), full_size::cases(&tree, &planned, random));
    }
    collection
}

impl Collection {
    /// Cases on images some of which are near one. Where a case asks for no buffers, some take turns.
    pub fn add_repairs(&mut self, home: &[u8], cases: RepairCases) {
        for case in cases {
            let turn = self.lines.len();
            let plan = Buffer { len: PLANS[turn % PLANS.len()], fill: (37 * turn) as u8 };
            let len = (case.image.len() + MORE[turn % MORE.len()]).min(LONGEST_SCRATCH) as u32;
            let scratch = Scratch { len, fill: (91 * turn) as u8 };
            let (plan, scratch) = case.buffers.unwrap_or((plan, scratch));
            let repairing = Repairing { image: case.image, plan, scratch };
            let (answer, line) = answer(&repairing);
            assert_eq!(answer, case.told.unwrap_or(answer), "{}: case {turn}", case.class);
            self.writer.repair(home, &repairing);
            self.count(case.class, answer.number, line);
        }
    }
}

/// The answer, and the line with the checksums of both buffers after it.
pub fn answer(repairing: &Repairing) -> (Answer, String) {
    let (mut plan, mut scratch) = (repairing.plan.bytes(), repairing.scratch.bytes());
    let answer = repair(&repairing.image, &mut plan, &mut scratch);
    let Answer { number, rows } = answer;
    (answer, format!("{number} {rows} {} {}", checksum(&plan), checksum(&scratch)))
}
