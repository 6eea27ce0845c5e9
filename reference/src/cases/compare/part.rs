//! All cases of the compare, which need no image.

use super::{differences, lengths, places, random_pairs, values, CompareCase};
use crate::cases::random::Random;
use crate::cases::Collection;
use crate::model::compare::{compare, Compared};
use crate::vectors::Comparing;

/// Makes every case. It panics where a case is not answered as told.
pub fn all() -> Collection {
    let mut collection = Collection::default();
    let random = &mut Random::new(23);
    let tables =
        [places::cases(), lengths::cases(), values::cases(), differences::cases(), random_pairs::cases(random)];
    tables.iter().flatten().for_each(|case| collection.add_pair(case));
    collection
}

pub fn line(compared: Compared) -> String {
    format!("{} {}", u8::from(compared.same), compared.pieces)
}

impl Collection {
    fn add_pair(&mut self, case: &CompareCase) {
        let CompareCase { class, names, told } = case;
        let Comparing { first, second } = names;
        let compared = compare(first, second);
        assert_eq!(compared, *told, "{class}: {first:?} and {second:?}");
        self.writer.compare(names);
        self.count(class, compared.pieces as u8, line(compared));
    }
}
