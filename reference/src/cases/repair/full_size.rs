//! Images of full size on the way of a rename, and others near them.

use super::{layout, open, refused, repaired, Number, RepairCases, NONE};
use crate::cases::damage::random_changes;
use crate::cases::damage::subject::Subject;
use crate::cases::random::Random;
use crate::cases::rename::random_renames::straight;
use crate::cases::stand_in::{final_name, with_stand_in};
use crate::cases::trees::builder::Tree;
use crate::explore::PlannedRename;
use crate::model::permission::{Credentials, SUPERUSER};
use crate::model::plan::Row;
use crate::model::request::Request;
use crate::vectors::edits;

const CLASS: &str = "full size";

/// Any rename that replaces something, with a journal record so short in bytes that edits can clear it.
pub fn any_rename(tree: &Tree, random: &mut Random) -> PlannedRename {
    let image = tree.encode();
    let any = || {
        let (old, new) = (straight(tree, false, random), straight(tree, false, random));
        let request = Request { who: Credentials::new(SUPERUSER, 0), current: 0, flags: 0, old, new };
        planned_as_before(&image, &request)
    };
    let is_near = |planned: &PlannedRename| edits(&planned.after([0]), &planned.before).is_some();
    std::iter::repeat_with(any).flatten().find(is_near).expect("some rename is not refused")
}

/// Renames were chosen before new's final name had to be portable, and repair asks nothing of names. So one is planned
/// with a stand-in, and then has its own name back.
fn planned_as_before(image: &[u8], request: &Request) -> Option<PlannedRename> {
    let (other, other_request) = with_stand_in(image, request);
    let mut planned = PlannedRename::new(&other, &other_request, 1)?;
    let name = final_name(&request.new.path)?;
    let name_at = usize::from(Row::read(&planned.plan, planned.deciding).body) + 8;
    planned.plan[name_at..name_at + name.len()].copy_from_slice(name);
    planned.before = image.to_vec();
    planned.finished = planned.after(0..planned.rows.into());
    Some(planned)
}

/// The image that the others are near: the journal record alone has landed.
pub fn home(planned: &PlannedRename) -> Vec<u8> {
    planned.after([0])
}

/// The images on the way that few edits lead to.
fn on_the_way(planned: &PlannedRename) -> RepairCases {
    let rest = 2..usize::from(planned.rows) - 1;
    let landed = |chosen: usize| [0, 1].into_iter().chain(rest.clone().filter(move |row| chosen & 1 << (row - 2) != 0));
    let images = (0..1 << rest.len()).map(|chosen| planned.after(landed(chosen)));
    let near = images.filter(|image| edits(&home(planned), image).is_some());
    let mut cases = vec![repaired(CLASS, home(planned), 1), repaired(CLASS, planned.before.clone(), 0)];
    cases.extend(near.map(|image| repaired(CLASS, image, planned.rows - 2)));
    cases
}

fn other_numbers(image: &[u8]) -> RepairCases {
    let counts = [1024, 1024, 512, 512, 512, 64];
    let mut cases = vec![];
    for (number, count) in Number::ALL.into_iter().zip(counts) {
        cases.extend([count, count + 2048, NONE - 1].map(|value| refused(CLASS, number.set(image, value))));
        cases.extend([0, 1, count / 2, count - 1].map(|value| open(CLASS, number.set(image, value))));
    }
    cases
}

pub fn cases(tree: &Tree, planned: &PlannedRename, random: &mut Random) -> RepairCases {
    let named = planned.after([0, 1]);
    let mut cases = on_the_way(planned);
    cases.extend(other_numbers(&home(planned)));
    cases.extend(other_numbers(&named));
    for bytes in [home(planned), named] {
        let subject = Subject { tree: tree.clone(), layout: layout(&bytes), bytes };
        cases.extend((0..20).map(|_| open(CLASS, random_changes::flip(&subject, random))));
    }
    cases
}
