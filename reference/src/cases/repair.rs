//! Repair cases: images as crashes leave them, and others with a journal record; most have number and rows told.

pub mod buffers;
pub mod clear_journal;
pub mod crashes;
pub mod damaged_images;
pub mod foreign_journals;
pub mod full_size;
pub mod journal_form;
pub mod journal_numbers;
pub mod limits;
pub mod part;
pub mod times;

use crate::cases::damage::subject::put_u16;
use crate::cases::trees::builder::Tree;
use crate::cases::trees::for_crashes::{crash_tree, OWNER};
use crate::explore::PlannedRename;
use crate::model::layout::{Layout, JOURNAL};
use crate::model::numbers::{DONE, NOT_REPAIRABLE};
use crate::model::permission::Credentials;
use crate::model::repair::Answer;
use crate::model::request::{Operand, Request, CURRENT};
use crate::vectors::{Buffer, Scratch};

#[derive(Clone)]
pub struct RepairCase {
    pub class: &'static str,
    pub image: Vec<u8>,
    /// Nothing where any buffers that are long enough will do.
    pub buffers: Option<(Buffer, Scratch)>,
    /// Nothing where the model's answer stands.
    pub told: Option<Answer>,
}

pub type RepairCases = Vec<RepairCase>;

/// A little behind the time of the crash tree, so that an inode that was written differs in few bytes.
pub(super) const NOW: u64 = 103;

/// What stands for no inode or no text in a journal record.
pub(super) const NONE: u16 = 65_535;

pub(super) fn told(class: &'static str, image: Vec<u8>, number: u8, rows: u8) -> RepairCase {
    RepairCase { class, image, buffers: None, told: Some(Answer { number, rows }) }
}

pub(super) fn repaired(class: &'static str, image: Vec<u8>, rows: u8) -> RepairCase {
    told(class, image, DONE, rows)
}

pub(super) fn refused(class: &'static str, image: Vec<u8>) -> RepairCase {
    told(class, image, NOT_REPAIRABLE, 0)
}

/// The model's answer stands.
pub(super) fn open(class: &'static str, image: Vec<u8>) -> RepairCase {
    RepairCase { class, image, buffers: None, told: None }
}

fn request(old: &str, new: &str) -> Request {
    let operand = |path: &str| Operand::new(CURRENT, path.as_bytes());
    Request { who: Credentials::new(OWNER, OWNER), current: 0, flags: 0, old: operand(old), new: operand(new) }
}

fn planned(tree: &Tree, old: &str, new: &str) -> PlannedRename {
    PlannedRename::new(&tree.encode(), &request(old, new), NOW).expect("the rename has rows")
}

/// One rename of each kind on the crash tree: a file, a symlink, a directory that replaces nothing, or an inode that goes.
fn kinds() -> [PlannedRename; 4] {
    let tree = crash_tree();
    [("/p/f", "/q/x"), ("/p/l", "/q/y"), ("/p/d", "/q/new"), ("/p/d", "/p/e")]
        .map(|(old, new)| planned(&tree, old, new))
}

pub(super) fn layout(image: &[u8]) -> Layout {
    Layout::read(image).expect("the layout is right")
}

pub(super) fn journal_at(image: &[u8]) -> usize {
    layout(image).offsets[JOURNAL]
}

/// The six numbers of a journal record, in their order.
#[derive(Clone, Copy, PartialEq, Eq)]
pub(super) enum Number {
    OldSlot,
    NewSlot,
    Moved,
    Replaced,
    OldParent,
    Text,
}

impl Number {
    pub(super) const ALL: [Number; 6] =
        [Number::OldSlot, Number::NewSlot, Number::Moved, Number::Replaced, Number::OldParent, Number::Text];

    fn place(self, image: &[u8]) -> usize {
        journal_at(image) + 2 + 2 * self as usize
    }

    pub(super) fn of(self, image: &[u8]) -> u16 {
        let at = self.place(image);
        u16::from_le_bytes([image[at], image[at + 1]])
    }

    pub(super) fn set(self, image: &[u8], value: u16) -> Vec<u8> {
        let mut image = image.to_vec();
        let at = self.place(&image);
        put_u16(&mut image, at, value.into());
        image
    }
}
