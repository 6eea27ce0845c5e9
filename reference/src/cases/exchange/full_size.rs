//! An exchange on an image of full size, and the images on its way that few edits lead to.

use super::on_the_way::ways;
use super::EXCHANGE;
use crate::cases::random::Random;
use crate::cases::rename::random_renames::straight;
use crate::cases::rename::{RenameCase, Told};
use crate::cases::repair::{repaired, RepairCases};
use crate::cases::stand_in::with_stand_in;
use crate::cases::trees::builder::Tree;
use crate::explore::PlannedRename;
use crate::model::permission::{Credentials, SUPERUSER};
use crate::model::request::Request;
use crate::vectors::edits;

const CLASS: &str = "full size";

/// Its time, so short in bytes that records written with it are near.
const NOW: u64 = 1;

/// Any exchange, with numbers so short in bytes that edits can tell its journal record and both its entries.
pub struct Exchanged {
    pub image: Vec<u8>,
    request: Request,
    planned: PlannedRename,
}

pub fn any_exchange(tree: &Tree, random: &mut Random) -> Exchanged {
    let image = tree.encode();
    let any = || {
        let (old, new) = (straight(tree, false, random), straight(tree, false, random));
        let request = Request { who: Credentials::new(SUPERUSER, 0), current: 0, flags: EXCHANGE, old, new };
        let (image, request) = with_stand_in(&image, &request);
        let planned = PlannedRename::new(&image, &request, NOW)?;
        edits(&image, &planned.after([0, 1, 2])).is_some().then_some(Exchanged { image, request, planned })
    };
    std::iter::repeat_with(any).flatten().next().expect("some exchange is not refused")
}

impl Exchanged {
    pub fn as_rename(&self) -> RenameCase {
        let told = Some(Told { number: 0, rows: self.planned.rows, steps: None });
        let (image, request) = (self.image.clone(), self.request.clone());
        RenameCase { class: CLASS, image, buffer: None, request, now: NOW, told }
    }

    pub fn repairs(&self) -> RepairCases {
        let images = ways(&self.planned).into_iter().map(|rows| self.planned.after(rows));
        let near = images.filter(|image| edits(&self.image, image).is_some());
        near.map(|image| repaired(CLASS, image, self.planned.rows - 1)).collect()
    }
}
