//! All cases of the part, base after base.

use super::{bases, chains, counts, duplicates, few_pairs, free_slots, texts, CrowdedCase, Table};
use crate::cases::random::Random;
use crate::cases::Collection;
use crate::model::check::{broken_rules, check};
use crate::vectors::edits;

/// Makes every case. It panics where a case breaks other rules than told, or is far from its base.
pub fn all() -> Collection {
    let mut collection = Collection::default();
    tables().iter().for_each(|table| collection.add_table(table));
    collection
}

/// The cases by their bases. Counts are asked of three, so that each kind of inode is at both ends.
pub fn tables() -> Vec<Table> {
    let random = &mut Random::new(27);
    let mut twelve_bytes = Table::new(bases::twelve_bytes());
    duplicates::in_one_bucket(&mut twelve_bytes, random);
    let mut four_bytes = Table::new(bases::four_bytes());
    free_slots::single(&mut four_bytes);
    counts::all(&mut four_bytes);
    texts::all(&mut four_bytes);
    let mut holes = Table::new(bases::holes());
    free_slots::many(&mut holes);
    let mut long = Table::new(bases::long());
    duplicates::of_full_length(&mut long);
    let mut apart = Table::new(bases::apart());
    duplicates::apart(&mut apart, random);
    let [mut rising, mut falling] = bases::chains().map(Table::new);
    for table in [&mut rising, &mut falling] {
        chains::all(table);
        counts::all(table);
    }
    vec![twelve_bytes, four_bytes, holes, long, apart, few_pairs::near(), few_pairs::at_the_limit(), rising, falling]
}

impl Collection {
    fn add_table(&mut self, table: &Table) {
        let base = &table.subject.bytes;
        for CrowdedCase { class, image, told } in &table.cases {
            assert_eq!(broken_rules(image), *told, "{class}");
            assert!(edits(base, image).is_some(), "{class}: an image far from its base");
            self.writer.check(base, image);
            let answer = check(image);
            self.count(class, answer, answer.to_string());
        }
    }
}
