//! Every combination of the three classes' bits, for callers whom a list does or does not bring into the group.

use super::{denied, planned, tree_with, with, STRANGER};
use crate::cases::rename::{case, request, RenameCase, RenameCases};
use crate::cases::trees::for_renames::{GROUP, OWNER};
use crate::model::permission::SUPERUSER;

/// User, effective group and list, and how far the bits that decide are shifted; nothing for the superuser.
type Caller = (u32, u32, &'static [u32], Option<u16>);

const CALLERS: [Caller; 10] = [
    (OWNER, GROUP, &[GROUP], Some(6)),
    (OWNER, STRANGER, &[GROUP], Some(6)),
    (OWNER, STRANGER, &[1001], Some(6)),
    (STRANGER, STRANGER, &[GROUP], Some(3)),
    (STRANGER, GROUP, &[1001, GROUP], Some(3)),
    (STRANGER, GROUP, &[1001], Some(3)),
    (STRANGER, STRANGER, &[1001, 1002], Some(0)),
    // The number of a user is no group's, and the other way round.
    (STRANGER, STRANGER, &[OWNER], Some(0)),
    (GROUP, OWNER, &[STRANGER], Some(0)),
    (SUPERUSER, STRANGER, &[GROUP], None),
];

const SEARCH: u16 = 1;
const WRITE: u16 = 2;

/// The classes that have the bit are those of the combination; every class has the other two bits.
fn one(combination: u16, bit: u16, (user, group, further, shift): Caller) -> RenameCase {
    let class = |shift: u16| if combination >> shift / 3 & 1 == 1 { 0o7 << shift } else { (0o7 & !bit) << shift };
    let mode = class(0) | class(3) | class(6);
    let allowed = shift.is_none_or(|shift| mode >> shift & bit != 0);
    let steps = if bit == SEARCH { [3, 0] } else { [3, 3] };
    let told = if allowed { planned(7, [3, 3]) } else { denied(steps) };
    let mut request = request("/w/p/f", "/w/q/new");
    request.who = with(user, group, further);
    case("one class counts", &tree_with(&[("/w/p", mode, GROUP)]), request, told)
}

/// Every caller with every combination, asked for search and for writing in turn.
pub fn cases() -> RenameCases {
    let mut cases = vec![];
    for (i, caller) in (0..).zip(CALLERS) {
        for combination in 0..8u16 {
            let bit = if (i + combination.count_ones()) % 2 == 0 { SEARCH } else { WRITE };
            cases.push(one(combination, bit, caller));
        }
    }
    cases
}
