//! Flags: what each of them changes in the answers to all renames, and what an exchange leaves.

use super::made::{all_rename_lines, all_renames, all_repairs, renames_with_flags, WITH_FLAGS};
use crate::cases::exchange::{EXCHANGE, NO_REPLACE};
use crate::cases::rename::part::answer;
use crate::cases::repair::part as repair_part;
use crate::model::image::{Image, DIRECTORY, LINKS_MAX};
use crate::model::layout::{Layout, INODES, JOURNAL};
use crate::model::numbers::{BAD_REQUEST, BUFFER_TOO_SHORT, EEXIST, EINVAL, ENOENT, INCONSISTENT, JOURNAL_PENDING};
use crate::model::plan::Row;
use crate::model::rename::call::Call;
use crate::model::rename::finished::finished;
use crate::model::rename::order::{self, Place};
use crate::model::rename::rename;
use crate::model::request::Request;
use crate::model::walk::{is_portable, walk_both};
use crate::vectors::{read, Case, Renaming, Writer};
use std::collections::BTreeSet;

fn with_flags(renaming: &Renaming, flags: u32) -> Renaming {
    let mut renaming = renaming.clone();
    renaming.request.flags = flags;
    renaming
}

/// What stops a call, and whether its new exists; nothing where a walk is refused, or something ahead of the walks.
fn behind_the_walks(renaming: &Renaming) -> Option<bool> {
    let Renaming { image, buffer, request, .. } = renaming;
    let view = Image::read(image);
    let call = Call::new(image, view.as_ref(), request, buffer.len.into());
    let is_behind = order::first(&call).is_none_or(|(place, _)| place > Place::NewWalk);
    call.parts().filter(|_| is_behind).map(|parts| parts.replaced.is_some())
}

/// Without flags, however that is stored, a rename answers as before.
#[test]
fn no_flags_answer_every_rename_as_before() {
    let mut writer = Writer::default();
    all_renames().for_each(|renaming| writer.rename_with_flags(&renaming.image, renaming));
    let cases = read(&writer.data).expect("the format is kept");
    for (case, line) in cases.into_iter().zip(all_rename_lines()) {
        let Case::RenameWithFlags(renaming) = case else { panic!("no rename was stored") };
        assert_eq!(answer(&renaming).1, *line);
    }
}

#[test]
fn no_replace_changes_what_has_an_existing_new_and_nothing_else() {
    let mut changed = 0;
    for (renaming, line) in all_renames().zip(all_rename_lines()) {
        let (kept, flagged) = answer(&with_flags(renaming, NO_REPLACE));
        match behind_the_walks(renaming) {
            Some(true) => {
                assert_eq!((kept.number, kept.rows), (EEXIST, 0));
                assert_eq!(kept.steps, answer(renaming).0.steps);
                changed += 1;
            }
            _ => assert_eq!(flagged, *line),
        }
    }
    assert!(changed > 2_000, "{changed}");
}

#[test]
fn exchange_needs_an_existing_new_behind_both_walks() {
    let mut with_rows = 0;
    for (renaming, line) in all_renames().zip(all_rename_lines()) {
        let (exchanged, flagged) = answer(&with_flags(renaming, EXCHANGE));
        match behind_the_walks(renaming) {
            Some(false) => assert_eq!((exchanged.number, exchanged.steps), (ENOENT, answer(renaming).0.steps)),
            Some(true) => {
                assert!([0, 7, 8].contains(&exchanged.rows), "{} rows", exchanged.rows);
                with_rows += usize::from(exchanged.rows > 0);
            }
            None => assert_eq!(flagged, *line),
        }
    }
    assert!(with_rows > 800, "{with_rows}");
}

/// Whatever would answer without them, unless it comes ahead of the walks.
#[test]
fn wrong_flags_answer_ahead_of_every_walk() {
    let ahead = [BUFFER_TOO_SHORT, INCONSISTENT, JOURNAL_PENDING, BAD_REQUEST];
    for (turn, (renaming, line)) in all_renames().zip(all_rename_lines()).enumerate() {
        let flags = [3, 4, 5, 6, 7, 1 << 31, u32::MAX][turn % 7];
        let (refused, flagged) = answer(&with_flags(renaming, flags));
        match ahead.contains(&answer(renaming).0.number) {
            true => assert_eq!(flagged, *line),
            false => assert_eq!((refused.number, refused.rows, refused.steps), (EINVAL, 0, [0, 0])),
        }
    }
}

/// The exchanges of every part that have rows, those of the old parts with the flag added.
fn exchanges() -> impl Iterator<Item = Renaming> {
    let others = all_renames().map(|renaming| with_flags(renaming, EXCHANGE));
    let own = renames_with_flags().filter(|renaming| renaming.request.flags == EXCHANGE).cloned();
    others.chain(own).filter(|renaming| answer(renaming).0.rows > 0)
}

fn turned(request: &Request) -> Request {
    Request { old: request.new.clone(), new: request.old.clone(), ..request.clone() }
}

/// The other way round an exchange is answered alike, if the other name is portable, and leaves the same image.
#[test]
fn an_exchange_is_the_same_the_other_way_round() {
    let is_own = |renaming: &&Renaming| renaming.request.flags == EXCHANGE;
    let mut compared = 0;
    for renaming in renames_with_flags().filter(is_own).filter(|it| behind_the_walks(it) == Some(true)) {
        let back = Renaming { request: turned(&renaming.request), ..renaming.clone() };
        if behind_the_walks(&back).is_none() {
            assert!(!renaming.request.old.path.iter().all(|byte| is_portable(byte) || *byte == b'/'));
            continue;
        }
        let ([one, other], now) = ([renaming, &back].map(|it| answer(it).0), renaming.now);
        assert_eq!((one.number, one.rows), (other.number, other.rows));
        let after = |request: &Request| finished(&renaming.image, request, now);
        assert_eq!(after(&renaming.request), after(&back.request));
        compared += 1;
    }
    assert!(compared > 1_500, "{compared}");
}

/// The slots that both paths lead to.
fn slots(image: &[u8], request: &Request) -> Option<[u16; 2]> {
    let [old, new] = walk_both(&Image::read(image)?, request).found?;
    Some([old.existing?.slot, new.existing?.slot])
}

/// The image with all times of inodes zero.
fn without_times(image: &[u8]) -> Vec<u8> {
    let layout = Layout::read(image).expect("the layout is right");
    let mut bytes = image.to_vec();
    bytes[layout.section(INODES)].chunks_exact_mut(32).for_each(|inode| inode[16..].fill(0));
    bytes
}

/// Done twice, all is as it was, but for times. Where a path leads through what is exchanged, it may lead elsewhere then.
#[test]
fn an_exchange_and_the_same_once_more_leave_the_image_as_it_was() {
    let mut again = 0;
    for Renaming { image, request, now, .. } in exchanges() {
        let once = finished(&image, &request, now).expect("both walks are whole");
        assert!(without_times(&once) != without_times(&image));
        if slots(&once, &request) != slots(&image, &request) {
            continue;
        }
        let twice = finished(&once, &request, now).expect("both walks are whole");
        assert!(without_times(&twice) == without_times(&image), "{request:?}");
        again += 1;
    }
    assert!(again > 1_000, "{again}");
}

/// The rows in their order, by group: the record, both entries, the inodes, the record.
#[test]
fn the_rows_of_an_exchange_are_in_four_groups() {
    for renaming in exchanges() {
        let mut plan = renaming.buffer.bytes();
        let rows = rename(&renaming.image, &renaming.request, renaming.now, &mut plan).rows;
        let groups: Vec<u8> = (0..rows.into()).map(|row| Row::read(&plan, row).group).collect();
        let wanted: &[u8] = if rows == 7 { &[1, 2, 2, 3, 3, 3, 4] } else { &[1, 2, 2, 3, 3, 3, 3, 4] };
        assert_eq!(groups, wanted);
        let record = &plan[72..104];
        assert_eq!((record[0], record[1], &record[12..16]), (1, 7, &[255, 255, 0, 0][..]));
        assert_eq!(record[16..24], renaming.now.to_le_bytes());
    }
}

/// Moved's kind and replaced's, and whether both are in one directory: all of them.
#[test]
fn every_shape_of_an_exchange_is_planned() {
    let mut shapes = BTreeSet::new();
    for (renaming, _) in WITH_FLAGS.renames().filter(|(_, line)| line.starts_with("0 7") || line.starts_with("0 8")) {
        let view = Image::read(&renaming.image);
        let call = Call::new(&renaming.image, view.as_ref(), &renaming.request, renaming.buffer.len.into());
        let Some(parts) = call.parts().filter(|parts| parts.exchange) else { continue };
        let replaced = parts.replaced.expect("an exchange has two");
        let kinds = [parts.moved.inode, replaced.inode].map(|inode| parts.inode(inode).kind());
        shapes.insert((kinds, parts.within_one_directory()));
    }
    assert_eq!(shapes.len(), 3 * 3 * 2);
}

/// No parent of a finished exchange has more links than it may, and one has just as many.
#[test]
fn an_exchange_may_fill_a_directory() {
    let mut filled = 0;
    for Renaming { image, request, now, .. } in exchanges() {
        let after = finished(&image, &request, now).expect("both walks are whole");
        let links = |bytes: &[u8]| -> Vec<u16> {
            let view = Image::read(bytes).expect("the layout is right");
            view.inodes().filter(|inode| inode.kind() == DIRECTORY).map(|inode| inode.links()).collect()
        };
        let (before, after) = (links(&image), links(&after));
        filled += before.iter().zip(&after).filter(|(was, is)| **was == LINKS_MAX - 1 && **is == LINKS_MAX).count();
    }
    assert!(filled >= 8, "{filled}");
}

/// A repair of an exchange has every row but the first, and never fewer.
#[test]
fn repairs_of_exchanges_have_six_rows_or_seven() {
    let of_an_exchange = |image: &[u8]| {
        let journal = Layout::read(image)?.offsets[JOURNAL];
        (image[journal..journal + 2] == [1, 7]).then_some(())
    };
    let repairs = all_repairs().filter(|case| of_an_exchange(&case.image).is_some());
    let rows: BTreeSet<u8> = repairs.map(|case| repair_part::answer(case).0.rows).collect();
    assert_eq!(rows, BTreeSet::from([0, 6, 7]));
}
