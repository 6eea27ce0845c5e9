//! Plans of other lengths, and bytes in them that no row is about.

use super::{any_number, any_record, bad, good, some_records, Draft, Landings, Place};
use crate::cases::damage::subject::Subject;
use crate::cases::damage::LAYOUT_CLAUSES;
use crate::cases::random::Random;
use crate::model::plan::{body_position, BODY_LEN, ROWS, ROW_LEN};
use crate::vectors::{edits, Landing, LONGEST_PLAN};

/// The bodies of records of 32 bytes have as many bytes more.
pub fn dirty_past_the_length(subject: &Subject, random: &mut Random) -> Landings {
    let records = some_records(subject).into_iter().filter(|&(_, len)| len < BODY_LEN);
    let dirty = |place: Place| {
        let number = any_number(random);
        let mut landing = Draft::new(number, place, random).on(&subject.bytes);
        landing.plan[body_position(number) + place.1..body_position(number + 1)].fill_with(|| random.byte());
        landing
    };
    records.map(dirty).collect()
}

pub fn dirty_elsewhere(subject: &Subject, random: &mut Random) -> Landings {
    let dirty = |place: Place| {
        let number = any_number(random);
        let mut draft = Draft::new(number, place, random);
        draft.plan.fill_with(|| random.byte());
        draft.on(&subject.bytes)
    };
    some_records(subject).into_iter().map(dirty).collect()
}

fn resized(mut landing: Landing, len: usize, random: &mut Random) -> Landing {
    landing.plan.resize_with(len, || random.byte());
    landing
}

pub fn long(subject: &Subject, random: &mut Random) -> Landings {
    let lens = [649, 650, 655, 656, 711, 712, 720, 1023, LONGEST_PLAN];
    let longer = |len: usize| resized(good(subject, random).on(&subject.bytes), len, random);
    lens.map(longer).to_vec()
}

const SHORT: [usize; 12] = [0, 1, 7, 8, 40, 71, 72, 136, 584, 640, 646, 647];

/// Low row numbers, so that in the longer ones both the row and its body are there.
pub fn short(subject: &Subject, random: &mut Random) -> Landings {
    let cut = |len: usize| {
        let (number, place) = (random.below(4), any_record(subject, random));
        resized(Draft::new(number, place, random).on(&subject.bytes), len, random)
    };
    SHORT.map(cut).to_vec()
}

pub fn short_with_a_bad_row(subject: &Subject, random: &mut Random) -> Landings {
    let cut = |len: usize| {
        let mut landing = resized(bad(subject, random).on(&subject.bytes), len, random);
        if random.one_in(3) {
            landing.row += 9;
        }
        landing
    };
    SHORT.map(cut).to_vec()
}

pub fn short_with_a_broken_layout(subject: &Subject, random: &mut Random) -> Landings {
    let mut landings = vec![];
    for clause in LAYOUT_CLAUSES {
        let images = (clause.images)(subject).into_iter().filter(|image| edits(&subject.bytes, image).is_some());
        for image in images.take(2) {
            let draft = if random.one_in(2) { bad(subject, random) } else { good(subject, random) };
            let len = *random.pick(&SHORT);
            landings.push(resized(draft.on(&image), len, random));
        }
    }
    landings
}

/// A good plan with a byte or two of some row changed, and maybe the next or the last row asked for.
pub fn random(subject: &Subject, random: &mut Random) -> Landings {
    let any = |_| {
        let mut landing = good(subject, random).on(&subject.bytes);
        let at = random.below(ROWS) * ROW_LEN;
        landing.plan[at] = random.byte() % 6;
        landing.plan[at + random.below(ROW_LEN)] ^= 1 << random.below(8);
        landing.row = landing.row.wrapping_add([0, 0, 0, 0, 1, u64::MAX][random.below(6)]);
        landing
    };
    (0..100).map(any).collect()
}
