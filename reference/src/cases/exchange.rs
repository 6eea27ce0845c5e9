//! Cases with flags: no-replace, exchange, both and none of them; and repairs of exchanges.

pub mod ancestors;
pub mod around_the_flags;
pub mod bench;
pub mod buffers;
pub mod damaged_images;
pub mod foreign_records;
pub mod full_size;
pub mod link_counts;
pub mod names;
pub mod new_name;
pub mod on_the_way;
pub mod owners;
pub mod part;
pub mod permissions;
pub mod random_exchanges;
pub mod record_form;
pub mod record_numbers;
pub mod record_slots;
pub mod scenes;
pub mod times;
pub mod walks;

use crate::cases::rename::{case, components, request, RenameCase, Told};
use crate::cases::trees::builder::Tree;
use crate::explore::PlannedRename;
use crate::model::numbers::DONE;
use crate::model::permission::Credentials;
use crate::model::request::{Operand, Request, CURRENT};

/// The flags, told here and not taken from the model.
pub const NO_REPLACE: u32 = 1;
pub const EXCHANGE: u32 = 2;

/// The rows of an exchange within one directory, and between two.
const WITHIN: u8 = 7;
const BETWEEN: u8 = 8;

const fn planned(rows: u8, steps: [u16; 2]) -> Told {
    Told { number: DONE, rows, steps: Some(steps) }
}

const fn refused(number: u8, steps: [u16; 2]) -> Told {
    Told { number, rows: 0, steps: Some(steps) }
}

/// A request by the owner of the rename tree.
fn flagged(flags: u32, old: &str, new: &str) -> Request {
    Request { flags, ..request(old, new) }
}

/// A case whose walks are both whole and lead through no symlink.
fn straight(
    class: &'static str,
    tree: &Tree,
    flags: u32,
    (old, new): (&str, &str),
    number: u8,
    rows: u8,
) -> RenameCase {
    let steps = Some([components(old), components(new)]);
    case(class, tree, flagged(flags, old, new), Told { number, rows, steps })
}

/// The same by somebody else.
fn by(user: u32, mut case: RenameCase) -> RenameCase {
    case.request.who = Credentials::new(user, user);
    case
}

/// An exchange on a tree whose owner asks for it, and which has rows.
fn planned_exchange(tree: &Tree, owner: u32, (old, new): (&str, &str), now: u64) -> PlannedRename {
    let operand = |path: &str| Operand::new(CURRENT, path.as_bytes());
    let who = Credentials::new(owner, owner);
    let request = Request { who, current: 0, flags: EXCHANGE, old: operand(old), new: operand(new) };
    PlannedRename::new(&tree.encode(), &request, now).expect("the exchange has rows")
}
