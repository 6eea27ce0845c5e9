//! Further groups: a list of none changes nothing, and a list is a set to which the effective group belongs.

use super::made::{Made, RENAMES, RENAMES_WITH_GROUPS};
use crate::cases::rename::part::answer;
use crate::model::image::Inode;
use crate::model::numbers::BAD_REQUEST;
use crate::model::permission::{may_search, may_write, Credentials, SUPERUSER};
use crate::model::request::FURTHER_MAX;
use crate::vectors::{read, Case, Renaming, Writer};

/// The answers to renames that are stored in the other of the two ways and read back.
fn lines_of(store: fn(&mut Writer, &[u8], &Renaming), cases: &[&Renaming]) -> Vec<String> {
    let mut writer = Writer::default();
    cases.iter().for_each(|renaming| store(&mut writer, &renaming.image, renaming));
    let line = |case: Case| match case {
        Case::Rename(renaming) | Case::RenameWithGroups(renaming) => answer(&renaming).1,
        _ => panic!("no rename was stored"),
    };
    read(&writer.data).expect("the format is kept").into_iter().map(line).collect()
}

#[test]
fn a_list_of_none_answers_every_rename_as_before() {
    let Made { cases, collection } = &*RENAMES;
    assert!(cases.iter().all(|renaming| renaming.request.who.further.is_empty()));
    assert_eq!(lines_of(Writer::rename_with_groups, &cases.iter().collect::<Vec<_>>()), collection.lines);
}

#[test]
fn a_stored_list_of_none_answers_as_no_list() {
    let Made { cases, collection } = &*RENAMES_WITH_GROUPS;
    let stored = cases.iter().zip(&collection.lines);
    let (without, lines): (Vec<&Renaming>, Vec<String>) =
        stored.filter(|(case, _)| case.request.who.further.is_empty()).map(|(case, line)| (case, line.clone())).unzip();
    assert!(without.len() > 100);
    assert_eq!(lines_of(Writer::rename, &without), lines);
}

/// The rule as it was when a caller had one group.
fn allowed_before(who: &Credentials, inode: Inode, bit: u16) -> bool {
    let classes = [who.user == inode.owner(), who.group == inode.group(), true];
    let class = classes.iter().position(|&applies| applies).unwrap_or(2);
    who.user == SUPERUSER || inode.mode() >> (6 - 3 * class) & bit != 0
}

#[test]
fn with_no_list_permission_is_as_it_was() {
    for mode in 0..0o1000u16 {
        for (user, group) in (0..4).flat_map(|user| (0..4).map(move |group| (user, group))) {
            let mut record = [0; 32];
            record[2..4].copy_from_slice(&mode.to_le_bytes());
            (record[4], record[8]) = (1, 2);
            let (who, inode) = (Credentials::new(user, group), Inode(&record));
            assert_eq!(may_search(&who, inode), allowed_before(&who, inode, 1));
            assert_eq!(may_write(&who, inode), allowed_before(&who, inode, 2));
        }
    }
}

/// The answer with other groups.
fn line_with(renaming: &Renaming, change: impl Fn(&mut Credentials)) -> String {
    let mut renaming = renaming.clone();
    change(&mut renaming.request.who);
    answer(&renaming).1
}

/// The stored renames whose list has a group and is not too long.
fn with_lists() -> impl Iterator<Item = (&'static Renaming, &'static String)> {
    let stored = RENAMES_WITH_GROUPS.cases.iter().zip(&RENAMES_WITH_GROUPS.collection.lines);
    stored.filter(|(renaming, _)| (1..=FURTHER_MAX).contains(&renaming.request.who.further.len()))
}

#[test]
fn groups_are_a_set() {
    for (renaming, line) in with_lists() {
        assert_eq!(line_with(renaming, |who| who.further.reverse()), *line);
        assert_eq!(line_with(renaming, |who| std::mem::swap(&mut who.group, &mut who.further[0])), *line);
        let each_once = |who: &mut Credentials| {
            who.further.sort_unstable();
            who.further.dedup();
        };
        assert_eq!(line_with(renaming, each_once), *line);
        let has_room = renaming.request.who.further.len() < FURTHER_MAX;
        assert!(!has_room || line_with(renaming, |who| who.further.push(who.group)) == *line);
    }
}

#[test]
fn lists_decide_often_and_never_for_the_superuser() {
    let mut deciding = 0;
    for (renaming, line) in with_lists() {
        let decides = line_with(renaming, |who| who.further.clear()) != *line;
        assert!(!decides || renaming.request.who.user != SUPERUSER);
        deciding += usize::from(decides);
    }
    assert!(deciding > 200, "{deciding} lists decide");
}

/// Whatever answered while the list was short enough, unless it comes ahead of the request.
#[test]
fn every_list_can_be_too_long() {
    for (renaming, line) in with_lists() {
        let number = line_with(renaming, |who| who.further.resize(FURTHER_MAX + 1, who.group));
        let ahead = ["201 ", "203 ", "205 "].iter().any(|ahead| line.starts_with(ahead));
        assert!(ahead && number == *line || number.starts_with(&format!("{BAD_REQUEST} 0 0 0 ")), "{line}");
    }
}
