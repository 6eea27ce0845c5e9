//! The one group that matches at every place of the list, as the effective one, and nowhere.

use super::{asked, others, others_but, stranger, with, MOST, STRANGER};
use crate::cases::rename::RenameCases;
use crate::cases::trees::for_renames::GROUP;

/// The list ends with the match, or has more behind it.
fn in_the_list() -> RenameCases {
    let mut cases = vec![];
    for place in 1..=MOST {
        let mut lengths = vec![place, MOST];
        lengths.dedup();
        for count in lengths {
            let who = stranger(&others_but(count, place, GROUP));
            cases.extend(asked("place in the list", GROUP, &who, true));
        }
    }
    cases
}

/// Groups of no use beside the effective one, which matches alone or does not.
fn not_in_the_list() -> RenameCases {
    let mut cases = vec![];
    for count in [0, 1, MOST - 1, MOST] {
        let effective = with(STRANGER, GROUP, &others(count));
        cases.extend(asked("effective group alone", GROUP, &effective, true));
        cases.extend(asked("no group matches", GROUP, &stranger(&others(count)), false));
    }
    cases
}

pub fn cases() -> RenameCases {
    [in_the_list(), not_in_the_list()].concat()
}
