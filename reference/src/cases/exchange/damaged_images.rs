//! Damaged images with the journal record of an exchange: the layout comes first, and the records count by their outcome.

use super::on_the_way::kinds;
use crate::cases::damage::subject::Subject;
use crate::cases::damage::{LAYOUT_CLAUSES, RECORD_CLAUSES};
use crate::cases::random::Random;
use crate::cases::repair::clear_journal::some_of;
use crate::cases::repair::damaged_images::changed_by_chance;
use crate::cases::repair::{layout, open, told, RepairCases};
use crate::cases::trees::for_crashes::crash_tree;
use crate::model::land::land;
use crate::model::numbers::INCONSISTENT;

fn of_the_layout(random: &mut Random) -> RepairCases {
    let bytes = kinds()[0].after([0, 1]);
    let subject = Subject { tree: crash_tree(), layout: layout(&bytes), bytes };
    let images = LAYOUT_CLAUSES.iter().flat_map(|clause| some_of(clause, &subject, 1, random));
    images.map(|image| told("layout under a record", image, INCONSISTENT, 0)).collect()
}

/// The check's own damages, with the record and one of the entries landed on them: rows may write over the damage.
fn of_the_records(random: &mut Random) -> RepairCases {
    let subject = Subject::new(crash_tree());
    let kinds = kinds();
    let mut cases = vec![];
    for (turn, clause) in RECORD_CLAUSES.iter().enumerate() {
        let planned = &kinds[turn % kinds.len()];
        for mut image in some_of(clause, &subject, 3, random) {
            land(&mut image, &planned.plan, 0);
            land(&mut image, &planned.plan, 1 + turn as u64 % 2);
            cases.push(open("damaged records", image));
        }
    }
    cases
}

/// Any bytes changed on the way, those of the journal record among them.
fn by_chance(count: usize, random: &mut Random) -> RepairCases {
    let mut cases = vec![];
    for planned in kinds() {
        let all = (0..usize::from(planned.rows) - 1).collect();
        for way in [vec![0], vec![0, 2], vec![0, 1, 2, 4], all] {
            cases.extend(changed_by_chance(planned.after(way), count, random));
        }
    }
    cases
}

pub fn cases(random: &mut Random) -> RepairCases {
    [of_the_layout(random), of_the_records(random), by_chance(14, random)].concat()
}
