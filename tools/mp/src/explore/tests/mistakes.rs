//! Mistakes that a store, a repair or a plan could have. A check that passed them would be worth nothing.

use super::*;

/// The sentences of the breaches that a call has with some jobs.
fn breaches(call: Call, jobs: Jobs) -> Vec<String> {
    explore(call, jobs, &mut |_| ()).breaches.into_iter().map(|(_, sentence)| sentence).collect()
}

fn has(sentences: &[String], part: &str) -> bool {
    sentences.iter().any(|sentence| sentence.contains(part))
}

/// The third rename of the bench with its rows in other groups.
fn regrouped(groups: &[(usize, u8)]) -> Call {
    let mut call = call("/b/g", "/g", 0);
    groups.iter().for_each(|&(row, group)| call.plan.0[8 * row] = group);
    call
}

#[test]
fn a_repair_that_always_takes_back() {
    fn repair(image: &[u8], plan: &mut [u8], scratch: &mut [u8]) -> Repaired {
        let answered = mirepillar::repair(image, plan, scratch);
        let last = answered.rows.saturating_sub(1);
        let row: [u8; 8] = plan[8 * last..8 * last + 8].try_into().unwrap_or_default();
        plan[..648].fill(0);
        plan[..8].copy_from_slice(&row);
        // The only body is the cleared journal record's, and it stands where the first one does.
        plan[6..8].copy_from_slice(&72u16.to_le_bytes());
        Repaired { rows: answered.rows.min(1), ..answered }
    }
    let seen = breaches(call("/a/f", "/b/g", 0), Jobs { repair, ..PROVED });
    assert!(has(&seen, "a repair leaves neither"), "{seen:?}");
}

#[test]
fn a_repair_that_refuses() {
    fn repair(image: &[u8], plan: &mut [u8], scratch: &mut [u8]) -> Repaired {
        match mirepillar::repair(image, plan, scratch) {
            answered if answered.rows > 1 => Repaired { number: Number::NOT_REPAIRABLE, rows: 0 },
            answered => answered,
        }
    }
    let seen = breaches(call("/a/f", "/b/g", 0), Jobs { repair, ..PROVED });
    assert!(has(&seen, "repair does not answer 0: 204"), "{seen:?}");
}

#[test]
fn a_store_that_refuses_a_row() {
    fn land(image: &mut [u8], plan: &[u8], row: u64) -> Number {
        if row == 3 {
            return Number::BAD_ROW;
        }
        mirepillar::land(image, plan, row)
    }
    let seen = breaches(call("/a/f", "/b/g", 0), Jobs { land, ..PROVED });
    assert!(has(&seen, "row 3 is not landed in its turn: 207"), "{seen:?}");
}

/// Half of the record is written, and the job says that all of it is.
#[test]
fn a_store_that_tears_a_record() {
    fn land(image: &mut [u8], plan: &[u8], row: u64) -> Number {
        let before = image.to_vec();
        let answered = mirepillar::land(image, plan, row);
        if row == 3 {
            let half = image.len() / 4;
            image[..half].copy_from_slice(&before[..half]);
        }
        answered
    }
    let seen = breaches(call("/a/f", "/b/g", 0), Jobs { land, ..PROVED });
    assert!(!seen.is_empty());
}

#[test]
fn the_old_entry_cleared_in_the_new_ones_group() {
    let seen = breaches(regrouped(&[(2, 2)]), PROVED);
    assert!(has(&seen, "the moved file has no name"), "{seen:?}");
}

#[test]
fn the_journal_record_cleared_with_the_inodes() {
    let seen = breaches(regrouped(&[(6, 3)]), PROVED);
    assert!(has(&seen, "repair does not answer 0: 201"), "{seen:?}");
}

#[test]
fn a_finished_image_that_is_not_sound() {
    let mut call = call("/b/g", "/g", 0);
    // The moved inode's link count, in the body of row 3.
    call.plan.0[72 + 64 * 3 + 12] = 9;
    assert!(has(&breaches(call, PROVED), "not sound"));
}
