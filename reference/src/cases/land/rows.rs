//! Rows: where they land, and each of their parts wrong.

use super::{all_records, any_number, any_record, for_records, good, on_other_places, section_records, some_records};
use super::{Draft, Landings, Place, WRITABLE};
use crate::cases::damage::subject::Subject;
use crate::cases::random::Random;
use crate::model::layout::{ENTRIES, HANDLES, INODES, JOURNAL, SECTIONS, TEXTS};
use crate::model::plan::{body_position, BODY_LEN, PLAN_LEN, ROWS, ROW_LEN};
use crate::vectors::{Landing, LONGEST_PLAN};

/// Every row number and every group on some records of every section.
pub fn landable(subject: &Subject, random: &mut Random) -> Landings {
    let mut landings = vec![];
    for (i, place) in some_records(subject).into_iter().enumerate() {
        for number in 0..ROWS {
            let group = 1 + ((i + number) % 4) as u8;
            landings.push(Draft::new(number, place, random).with(|row| row.group = group).on(&subject.bytes));
        }
    }
    landings
}

pub fn cleared(subject: &Subject, random: &mut Random) -> Landings {
    let clear = |place: Place| {
        let mut landing = Draft::new(any_number(random), place, random).on(&subject.bytes);
        landing.plan[body_position(0)..].fill(0);
        landing
    };
    some_records(subject).into_iter().map(clear).collect()
}

/// Nine landable rows on as many records, so that a wrong row or body is seen.
pub fn one_of_many(subject: &Subject, random: &mut Random) -> Landings {
    let plans = std::iter::repeat_with(|| {
        let mut plan = vec![0; PLAN_LEN];
        for number in 0..ROWS {
            let place = any_record(subject, random);
            let single = Draft::new(number, place, random).plan();
            plan.iter_mut().zip(single).for_each(|(byte, new)| *byte |= new);
        }
        plan
    });
    let plans: Vec<Vec<u8>> = plans.take(3).collect();
    let image = || subject.bytes.clone();
    let rows = (0..ROWS as u64).flat_map(|row| plans.iter().map(move |plan| (row, plan)));
    rows.map(|(row, plan)| Landing { image: image(), plan: plan.clone(), row }).collect()
}

/// Rows of every record length at the start of every section: where a section is empty, the next one's record is there.
fn starts(subject: &Subject) -> Vec<Place> {
    let lens = [8, 32, 64];
    (subject.layout.offsets.iter()).flat_map(|&offset| lens.map(|len| (offset, len))).collect()
}

pub fn section_starts(subject: &Subject, random: &mut Random) -> Landings {
    let records = all_records(subject);
    let starts = starts(subject).into_iter().filter(|place| records.contains(place));
    starts.map(|place| Draft::new(any_number(random), place, random).on(&subject.bytes)).collect()
}

pub fn section_starts_refused(subject: &Subject, random: &mut Random) -> Landings {
    let starts = starts(subject).into_iter().map(|(offset, len)| (offset as i64, len)).collect();
    on_other_places(subject, random, starts)
}

fn numbered(subject: &Subject, random: &mut Random, number: usize, asked: u64) -> Landing {
    let place = any_record(subject, random);
    Landing { row: asked, ..Draft::new(number, place, random).on(&subject.bytes) }
}

pub fn numbers_too_large(subject: &Subject, random: &mut Random) -> Landings {
    let numbers =
        [9, 10, 16, 80, 81, 127, 128, 255, 32_768, 65_535, u64::MAX / 8, u64::MAX / 2, u64::MAX - 8, u64::MAX];
    numbers.map(|asked| Landing { row: asked, ..good(subject, random).on(&subject.bytes) }).to_vec()
}

/// The row that a narrower number, or a wrapped multiple of 8 or 64, would name is landable.
pub fn numbers_that_wrap(subject: &Subject, random: &mut Random) -> Landings {
    let mut landings = vec![];
    for bits in [4, 8, 16, 31, 32, 33, 48, 58, 61, 62, 63] {
        for number in [0, 1, 3, 8] {
            landings.push(numbered(subject, random, number, (1 << bits) + number as u64));
        }
    }
    landings
}

/// The bytes of the first body read as rows, with their bodies past the plan's end.
pub fn numbers_inside_bodies(subject: &Subject, random: &mut Random) -> Landings {
    let last = ROWS + (LONGEST_PLAN - PLAN_LEN) / BODY_LEN - 1;
    let numbers = (ROWS..=last).cycle();
    let rows = numbers.zip(some_records(subject));
    rows.map(|(number, place)| Draft::new(number, place, random).on(&subject.bytes)).collect()
}

pub fn groups(subject: &Subject, random: &mut Random) -> Landings {
    for_records(subject, random, &[0, 5, 6, 8, 127, 128, 129, 132, 255], |row, group| row.group = group)
}

pub fn second_bytes(subject: &Subject, random: &mut Random) -> Landings {
    for_records(subject, random, &[1, 2, 4, 16, 128, 255], |row, second| row.second = second)
}

pub fn zero_rows(subject: &Subject, random: &mut Random) -> Landings {
    let mut landings: Landings =
        (0..ROWS as u64).map(|row| Landing { row, ..good(subject, random).on(&subject.bytes) }).collect();
    for landing in &mut landings {
        let at = landing.row as usize * ROW_LEN;
        landing.plan[at..at + ROW_LEN].fill(0);
    }
    landings
}

pub fn body_positions(subject: &Subject, random: &mut Random) -> Landings {
    let steps = [-72, -64, -32, -8, -1, 1, 2, 8, 32, 64, 72, 128, 256, 576, 32_768];
    let moved = for_records(subject, random, &steps, |row, step: i64| row.body = (i64::from(row.body) + step) as u16);
    let positions = [0, 8, 71, 584 + 64, 649, 65_535];
    let set = for_records(subject, random, &positions, |row, body| row.body = body);
    let swapped = for_records(subject, random, &[()], |row, ()| row.body = row.body.swap_bytes());
    [moved, set, swapped].concat()
}

/// The bodies of all rows are there, and each row names the next one's.
pub fn bodies_of_others(subject: &Subject, random: &mut Random) -> Landings {
    let mut landings = for_records(subject, random, &[1, 4, 8], |row, step| {
        let number = (usize::from(row.body) - body_position(0)) / BODY_LEN;
        row.body = body_position((number + step) % ROWS) as u16;
    });
    for landing in &mut landings {
        landing.plan[body_position(0)..].fill_with(|| random.byte());
    }
    landings
}

pub fn offsets_off_records(subject: &Subject, random: &mut Random) -> Landings {
    let steps = [-63, -33, -32, -31, -16, -8, -1, 1, 2, 8, 16, 31, 32, 33, 48, 63];
    let places = some_records(subject).into_iter();
    let moved = places.flat_map(|(offset, len)| steps.map(|step| (offset as i64 + step, len)));
    on_other_places(subject, random, moved.collect())
}

/// In the table of contents, just past the end, and so far that 16 bits could wrap.
pub fn offsets_outside(subject: &Subject, random: &mut Random) -> Landings {
    let end = subject.bytes.len() as i64;
    let contents = [0, 1, 8, 9, 16, 24, 32, 39];
    let past = [-31, -8, -1, 0, 1, 32, 64].map(|step| end + step);
    let far = [65_472, 65_503, 65_504, 65_505, 65_528, 65_535];
    let offsets = contents.into_iter().chain(past).chain(far);
    let places = offsets.flat_map(|offset| [8, 32, 40, 64].map(|len| (offset, len)));
    let wrapped = some_records(subject).into_iter().map(|(offset, len)| ((offset as i64) ^ 32_768, len));
    on_other_places(subject, random, places.chain(wrapped).collect())
}

/// Every length but the right one, each at some record of the section.
fn lengths_in(subject: &Subject, random: &mut Random, section: usize) -> Landings {
    let lens = [0, 1, 8, 16, 31, 32, 33, 48, 63, 64, 65, 96, 128, 256, 288, 320, 8_192, 32_800, 65_535];
    let records: Vec<Place> = section_records(subject, section).collect();
    if records.is_empty() {
        return vec![];
    }
    let places = lens.map(|len| (random.pick(&records).0 as i64, len)).to_vec();
    on_other_places(subject, random, places)
}

pub fn lengths_at_inodes(subject: &Subject, random: &mut Random) -> Landings {
    lengths_in(subject, random, INODES)
}

pub fn lengths_at_entries(subject: &Subject, random: &mut Random) -> Landings {
    lengths_in(subject, random, ENTRIES)
}

pub fn lengths_at_texts(subject: &Subject, random: &mut Random) -> Landings {
    lengths_in(subject, random, TEXTS)
}

pub fn lengths_at_handles(subject: &Subject, random: &mut Random) -> Landings {
    lengths_in(subject, random, HANDLES)
}

pub fn lengths_at_the_journal(subject: &Subject, random: &mut Random) -> Landings {
    lengths_in(subject, random, JOURNAL)
}

/// Over two or more neighbours of a section, and over the last and first records of two sections.
pub fn two_records(subject: &Subject, random: &mut Random) -> Landings {
    let mut places = vec![];
    for section in WRITABLE {
        let len = SECTIONS[section].record_len;
        let end = subject.layout.section(section).end as i64;
        places.extend([(end - 2 * len as i64, 2 * len), (end - 3 * len as i64, 3 * len), (end - len as i64, 2 * len)]);
        places.extend([(end - len as i64 / 2, len), (subject.layout.offsets[section] as i64, 2 * len)]);
    }
    on_other_places(subject, random, places)
}

pub fn handles(subject: &Subject, random: &mut Random) -> Landings {
    let handles: Vec<Place> = section_records(subject, HANDLES).collect();
    let places = handles.into_iter().flat_map(|(offset, _)| [8, 16, 32, 64].map(|len| (offset as i64, len)));
    on_other_places(subject, random, places.collect())
}

/// A landable row with some of its parts changed by chance.
pub fn random(subject: &Subject, random: &mut Random) -> Landings {
    let change = |_| {
        let (group, second, step, len) =
            (random.byte() % 6, random.byte() % 5, 8 * random.below(9) as u16, [8, 32, 64][random.below(3)]);
        let (keep_group, keep_second, odd) = (!random.one_in(4), !random.one_in(6), random.one_in(4));
        good(subject, random)
            .with(|row| {
                row.group = if keep_group { row.group } else { group };
                row.second = if keep_second { row.second } else { second };
                row.offset = if odd { row.offset.wrapping_add(step) } else { row.offset };
                row.len = if odd { len } else { row.len };
            })
            .on(&subject.bytes)
    };
    (0..200).map(change).collect()
}
