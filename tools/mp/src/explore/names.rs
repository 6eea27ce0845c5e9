//! What the two names of a call lead to in an image on the way.

use super::Call;
use crate::image::{Entry, Image, ABSENT};

/// What the old and the new name lead to.
#[derive(Clone, Copy, Debug, PartialEq, Eq, PartialOrd, Ord)]
pub enum Names {
    /// Only the old name leads to the moved file, as before.
    Old,
    /// Both names lead to it.
    Both,
    /// Only the new one does.
    New,
    /// An exchange: each name leads to the other's file.
    Exchanged,
    /// An exchange: both names lead to the file that was old's, and new's has no name unless a further one.
    BothToOlds,
    /// An exchange: both names lead to the file that was new's.
    BothToNews,
    /// The moved file has neither of the two, but a further one.
    Neither,
    /// The moved file has no name at all.
    Lost,
    /// A name leads elsewhere, or is not the name that it was.
    Foreign,
}

impl Names {
    pub fn said(self) -> &'static str {
        match self {
            Names::Old => "as before",
            Names::Both => "the moved file has both names",
            Names::New => "the moved file has the new name, and the old name is gone",
            Names::Exchanged => "exchanged",
            Names::BothToOlds => "both names lead to old's file, and new's has lost its own",
            Names::BothToNews => "both names lead to new's file, and old's has lost its own",
            Names::Neither => "the moved file has neither the old name nor the new",
            Names::Lost => "the moved file has no name",
            Names::Foreign => "a name leads to neither of the files that it may lead to",
        }
    }
}

/// A slot of an image that could be read.
fn slot(image: &Image, number: u16) -> Entry {
    image.entries.get(usize::from(number)).cloned().unwrap_or_default()
}

/// What the names lead to in an image on the way of a call.
pub fn names(call: &Call, bytes: &[u8]) -> Names {
    let (Ok(before), Ok(image)) = (Image::read(&call.before), Image::read(bytes)) else { return Names::Foreign };
    match call.exchange {
        true => exchanged(call, &before, &image),
        false => renamed(call, &before, &image),
    }
}

fn renamed(call: &Call, before: &Image, image: &Image) -> Names {
    let journal = call.journal;
    let [old, new] = [journal.old_slot, journal.new_slot].map(|number| slot(image, number));
    if journal.replaced != ABSENT && !keeps(&slot(before, journal.new_slot), &new, [journal.moved, journal.replaced]) {
        return Names::Foreign;
    }
    let moved_has_a_name = image.used_entries().any(|(_, entry)| entry.target == journal.moved);
    let [by_old, by_new] = [old, new].map(|entry| entry.is_used() && entry.target == journal.moved);
    match (by_old, by_new) {
        _ if !moved_has_a_name => Names::Lost,
        (true, false) => Names::Old,
        (true, true) => Names::Both,
        (false, true) => Names::New,
        (false, false) => Names::Neither,
    }
}

fn exchanged(call: &Call, before: &Image, image: &Image) -> Names {
    let journal = call.journal;
    let either = [journal.moved, journal.replaced];
    let slots = [journal.old_slot, journal.new_slot];
    if !slots.iter().all(|&number| keeps(&slot(before, number), &slot(image, number), either)) {
        return Names::Foreign;
    }
    match slots.map(|number| slot(image, number).target == journal.moved) {
        [true, false] => Names::Old,
        [false, true] => Names::Exchanged,
        [true, true] => Names::BothToOlds,
        [false, false] => Names::BothToNews,
    }
}

/// Whether an entry has kept its parent and name, and leads to one of two inodes.
fn keeps(before: &Entry, now: &Entry, either: [u16; 2]) -> bool {
    now.parent == before.parent && now.name == before.name && either.contains(&now.target)
}
