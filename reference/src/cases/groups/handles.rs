//! A directory under a handle that was or was not opened for search, in the group of which a list is or is not.

use super::{denied, others_but, planned, stranger, tree_with};
use crate::cases::rename::{case, request, RenameCase, RenameCases};
use crate::cases::trees::for_renames::GROUP;
use crate::model::request::Operand;

/// The handle of the rename tree that is on the directory /w/q.
const HANDLE: u8 = 2;

#[derive(Clone, Copy)]
enum Fate {
    Planned,
    /// Search is denied at that component.
    Search(u16),
    /// All components are searched for, and then writing is denied.
    Write,
}

use Fate::{Planned, Search, Write};

/// The handle's state and the directory's mode; the way to a name, with its components; what becomes of it for those
/// in the group, and for others.
const TABLE: [(u8, u16, &str, u16, [Fate; 2]); 11] = [
    (2, 0o020, "", 1, [Planned, Write]),
    (2, 0o002, "", 1, [Write, Planned]),
    (2, 0o020, "./", 2, [Search(2), Search(2)]),
    (2, 0o030, "./", 2, [Planned, Search(2)]),
    (2, 0o003, "./", 2, [Search(2), Planned]),
    (2, 0o030, "../q/", 3, [Planned, Search(3)]),
    (2, 0o003, "../q/", 3, [Search(3), Planned]),
    (1, 0o030, "", 1, [Planned, Search(1)]),
    (1, 0o020, "", 1, [Search(1), Search(1)]),
    (1, 0o003, "", 1, [Search(1), Planned]),
    (1, 0o030, "../q/", 3, [Planned, Search(1)]),
];

/// One line of the table, as old or as new.
fn one(i: usize, is_in: bool, as_old: bool) -> RenameCase {
    let (state, mode, way, components, fates) = TABLE[i];
    let mut tree = tree_with(&[("/w/q", mode, GROUP)]);
    tree.handles[usize::from(HANDLE)].state = state;
    let mut request = request("/w/p/f", "/w/p/new");
    let probed = |name: &str| Operand::new(HANDLE, format!("{way}{name}").as_bytes());
    match as_old {
        true => request.old = probed("file"),
        false => request.new = probed("new"),
    }
    request.who = stranger(&others_but(1 + i, 1 + i / 2, if is_in { GROUP } else { GROUP + 1 }));
    let whole = if as_old { [components, 3] } else { [3, components] };
    let told = match fates[usize::from(!is_in)] {
        Planned => planned(7, whole),
        Search(at) => denied(if as_old { [at, 0] } else { [3, at] }),
        Write => denied(whole),
    };
    case("opened for search", &tree, request, told)
}

pub fn cases() -> RenameCases {
    let lines = (0..TABLE.len()).flat_map(|i| [true, false].map(|is_in| (i, is_in)));
    lines.flat_map(|(i, is_in)| [true, false].map(|as_old| one(i, is_in, as_old))).collect()
}
