//! The cases of every part, made once for all the tests and read back as a program of the proved library reads them.

use crate::cases::{
    check, compare, crowded, exchange, groups, land, links, portable, rename, repair, sticky, walk, Collection,
};
use crate::vectors::{read, Case, Comparing, Landing, Renaming, Repairing, Walking};
use std::sync::LazyLock;

pub struct Made<T> {
    pub collection: Collection,
    pub cases: Vec<T>,
}

fn made<T>(make: fn() -> Collection, input: fn(Case) -> Option<T>) -> Made<T> {
    let collection = make();
    let cases = read(&collection.writer.data).expect("the format is kept");
    let cases = cases.into_iter().map(|case| input(case).expect("a case of this job")).collect();
    Made { collection, cases }
}

fn image(case: Case) -> Option<Vec<u8>> {
    match case {
        Case::Check(image) => Some(image),
        _ => None,
    }
}

pub static CHECKS: LazyLock<Made<Vec<u8>>> = LazyLock::new(|| made(check::part::all, image));

pub static CROWDED: LazyLock<Made<Vec<u8>>> = LazyLock::new(|| made(crowded::part::all, image));

pub static LANDINGS: LazyLock<Made<Landing>> = LazyLock::new(|| {
    made(land::part::all, |case| match case {
        Case::Land(landing) => Some(landing),
        _ => None,
    })
});

pub static WALKS: LazyLock<Made<Walking>> = LazyLock::new(|| {
    made(walk::part::all, |case| match case {
        Case::Walk(walking) => Some(walking),
        _ => None,
    })
});

pub static RENAMES: LazyLock<Made<Renaming>> = LazyLock::new(|| {
    made(rename::part::all, |case| match case {
        Case::Rename(renaming) => Some(renaming),
        _ => None,
    })
});

pub static REPAIRS: LazyLock<Made<Repairing>> = LazyLock::new(|| {
    made(repair::part::all, |case| match case {
        Case::Repair(repairing) => Some(repairing),
        _ => None,
    })
});

pub static RENAMES_WITH_GROUPS: LazyLock<Made<Renaming>> = LazyLock::new(|| {
    made(groups::part::all, |case| match case {
        Case::RenameWithGroups(renaming) => Some(renaming),
        _ => None,
    })
});

pub static STICKY_RENAMES: LazyLock<Made<Renaming>> = LazyLock::new(|| {
    made(sticky::part::all, |case| match case {
        Case::Rename(renaming) | Case::RenameWithGroups(renaming) => Some(renaming),
        _ => None,
    })
});

pub static THROUGH_SYMLINKS: LazyLock<Made<Case>> = LazyLock::new(|| made(links::part::all, Some));

pub static PORTABLE_NAMES: LazyLock<Made<Case>> = LazyLock::new(|| made(portable::part::all, Some));

pub static WITH_FLAGS: LazyLock<Made<Case>> = LazyLock::new(|| made(exchange::part::all, Some));

pub static COMPARES: LazyLock<Made<Comparing>> = LazyLock::new(|| {
    made(compare::part::all, |case| match case {
        Case::Compare(names) => Some(names),
        _ => None,
    })
});

impl Made<Case> {
    /// The walks of a part that has walks and renames, with their lines.
    pub fn walks(&self) -> impl Iterator<Item = (&Walking, &String)> {
        self.cases.iter().zip(&self.collection.lines).filter_map(|(case, line)| match case {
            Case::Walk(walking) => Some((walking, line)),
            _ => None,
        })
    }

    /// Its renames with their lines.
    pub fn renames(&self) -> impl Iterator<Item = (&Renaming, &String)> {
        self.cases.iter().zip(&self.collection.lines).filter_map(|(case, line)| match case {
            Case::Rename(renaming) | Case::RenameWithGroups(renaming) => Some((renaming, line)),
            Case::RenameWithFlags(renaming) => Some((renaming, line)),
            _ => None,
        })
    }

    /// Its repairs with their lines.
    pub fn repairs(&self) -> impl Iterator<Item = (&Repairing, &String)> {
        self.cases.iter().zip(&self.collection.lines).filter_map(|(case, line)| match case {
            Case::Repair(repairing) => Some((repairing, line)),
            _ => None,
        })
    }
}

/// The parts that have walks and renames.
const MIXED_PARTS: [&LazyLock<Made<Case>>; 2] = [&THROUGH_SYMLINKS, &PORTABLE_NAMES];

/// The parts that have renames alone.
const PARTS_OF_RENAMES: [&LazyLock<Made<Renaming>>; 3] = [&RENAMES, &RENAMES_WITH_GROUPS, &STICKY_RENAMES];

/// The renames without flags of every part.
pub fn all_renames() -> impl Iterator<Item = &'static Renaming> {
    let mixed = MIXED_PARTS.into_iter().flat_map(|made| made.renames().map(|(renaming, _)| renaming));
    PARTS_OF_RENAMES.into_iter().flat_map(|made| &made.cases).chain(mixed)
}

/// Their lines, in the same order.
pub fn all_rename_lines() -> impl Iterator<Item = &'static String> {
    let mixed = MIXED_PARTS.into_iter().flat_map(|made| made.renames().map(|(_, line)| line));
    PARTS_OF_RENAMES.into_iter().flat_map(|made| &made.collection.lines).chain(mixed)
}

/// The renames with flags, which one part has.
pub fn renames_with_flags() -> impl Iterator<Item = &'static Renaming> {
    WITH_FLAGS.renames().map(|(renaming, _)| renaming)
}

/// The repairs of every part.
pub fn all_repairs() -> impl Iterator<Item = &'static Repairing> {
    REPAIRS.cases.iter().chain(WITH_FLAGS.repairs().map(|(repairing, _)| repairing))
}

/// The walks of every part.
pub fn all_walks() -> impl Iterator<Item = &'static Walking> {
    let mixed = MIXED_PARTS.into_iter().flat_map(|made| made.walks().map(|(walking, _)| walking));
    WALKS.cases.iter().chain(mixed)
}
