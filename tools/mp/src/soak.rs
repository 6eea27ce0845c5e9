//! Random sound images and random renames on them, each explored: the adversary that does not tire.

use crate::explore::{search, Call, Exploration, Jobs};
use crate::files;
use crate::image::{Image, Journal};
use crate::random::Random;
use crate::random_image::{self, Size};
use crate::request::Asked;
use mirepillar::{Number, Plan, CURRENT_DIRECTORY, EXCHANGE, NO_REPLACE};
use std::path::Path;

#[cfg(test)]
mod tests;

/// How many renames are asked for on each image.
const ASKED_EACH: usize = 8;

/// Of so many images one is of full size: it takes as long as some hundred small ones.
const FULL_ONCE_IN: usize = 200;

/// What has been done so far.
#[derive(Clone, Copy, Debug, Default, PartialEq, Eq)]
pub struct Tally {
    pub images: usize,
    pub asked: usize,
    pub renames: usize,
    pub exchanges: usize,
    pub states: usize,
}

/// A call that did not survive.
pub struct Breach {
    pub image: Vec<u8>,
    pub asked: Asked,
    pub found: Exploration,
}

impl Breach {
    /// Writes the image and the request into a folder, and gives the command line that shows the breach again.
    pub fn store(&self, folder: &Path, seed: u64) -> Result<String, String> {
        let [image, request] = ["img", "request"].map(|ending| folder.join(format!("breach-{seed}.{ending}")));
        files::write(&image, &self.image)?;
        files::write(&request, &self.asked.write()?)?;
        let flag = match self.asked.flags {
            NO_REPLACE => " --no-replace",
            EXCHANGE => " --exchange",
            _ => "",
        };
        Ok(format!("mp explore {} {}{flag}", image.display(), request.display()))
    }
}

/// Explores the renames of one random image, and adds them up; or stops at the first breach.
pub fn one_image(random: &mut Random, jobs: Jobs, tally: &mut Tally) -> Option<Breach> {
    let size = if random.once_in(FULL_ONCE_IN) { Size::Full } else { Size::Small };
    let image = random_image::image(random, size);
    let bytes = image.write();
    tally.images += 1;
    for _ in 0..ASKED_EACH {
        let asked = request(random, &image);
        let found = explored(&bytes, &asked, jobs, tally);
        if let Some(found) = found.filter(|found| !found.breaches.is_empty()) {
            return Some(Breach { image: bytes, asked, found });
        }
    }
    None
}

/// Explores a call, if it is not refused and has rows.
fn explored(image: &[u8], asked: &Asked, jobs: Jobs, tally: &mut Tally) -> Option<Exploration> {
    let mut plan = Plan::EMPTY;
    let answered = mirepillar::rename(image, &asked.request(), &mut plan.0);
    tally.asked += 1;
    if answered.number != Number::DONE || answered.rows == 0 {
        return None;
    }
    let found = search::explore(Call::new(image.to_vec(), plan), jobs, &mut |_| ());
    match found.call.exchange {
        true => tally.exchanges += 1,
        false => tally.renames += 1,
    }
    tally.states += found.states.len();
    Some(found)
}

/// A request that is likely, but not sure, to be answered 0.
pub fn request(random: &mut Random, image: &Image) -> Asked {
    debug_assert_eq!(image.journal, Journal::default());
    let old = any_path(random, image);
    let new = match random.once_in(2) {
        true => any_path(random, image),
        false => new_path(random, image),
    };
    let user = if random.once_in(4) { random.below(4) as u32 * 100 } else { 0 };
    Asked {
        user,
        group: user,
        groups: (0..random.below(3)).map(|group| 100 * group as u32).collect(),
        cwd: 0,
        old_start: CURRENT_DIRECTORY,
        new_start: CURRENT_DIRECTORY,
        now: random.draw() >> random.below(64),
        flags: *random.pick(&[0, 0, 0, NO_REPLACE, EXCHANGE, EXCHANGE]),
        old,
        new,
    }
}

/// The path of an entry, or the root's where there is none.
fn any_path(random: &mut Random, image: &Image) -> Vec<u8> {
    let slots: Vec<usize> = image.used_entries().map(|(slot, _)| slot).collect();
    match slots.is_empty() {
        true => b"/".to_vec(),
        false => path_of(image, *random.pick(&slots)),
    }
}

/// A name that is likely to be missing, in some directory.
fn new_path(random: &mut Random, image: &Image) -> Vec<u8> {
    let is_directory =
        |slot: &usize| image.inode(image.entries[*slot].target).is_some_and(|inode| inode.is_directory());
    let slots: Vec<usize> = image.used_entries().map(|(slot, _)| slot).filter(is_directory).collect();
    let mut path = match slots.is_empty() || random.once_in(4) {
        true => Vec::new(),
        false => path_of(image, *random.pick(&slots)),
    };
    path.extend(format!("/new{}", random.below(100)).bytes());
    path
}

/// The path from the root to an entry. The image is sound, so the way up ends.
fn path_of(image: &Image, slot: usize) -> Vec<u8> {
    let entry = &image.entries[slot];
    let above = image.used_entries().find(|(_, other)| entry.parent != 0 && other.target == entry.parent);
    let mut path = above.map_or(Vec::new(), |(slot, _)| path_of(image, slot));
    path.push(b'/');
    path.extend(&entry.name);
    path
}
