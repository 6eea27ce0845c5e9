//! The rules of the records, 6 to 40: each is listed here, and nowhere else.

use super::records::Records;
use super::{entries, handles, inodes, texts};
use crate::model::layout::{ENTRIES, HANDLES, INODES, JOURNAL, TEXTS};

/// A rule about records: its number, their section, and which of them break it.
///
/// A record that is free, or of a type or state that is not known, has no other rule than the one that says so; and a
/// name or a text that is too long is not read. Root is the exception: it has to be a directory even where it is free.
pub struct RecordRule {
    pub number: u8,
    pub section: usize,
    pub broken_at: fn(&Records) -> Vec<usize>,
}

const fn rule(number: u8, section: usize, broken_at: fn(&Records) -> Vec<usize>) -> RecordRule {
    RecordRule { number, section, broken_at }
}

pub const RECORD_RULES: [RecordRule; 35] = [
    rule(6, INODES, inodes::of_unknown_type),
    rule(7, HANDLES, handles::in_unknown_state),
    rule(8, INODES, inodes::files_with_a_field),
    rule(9, INODES, inodes::root_with_another_parent),
    rule(10, ENTRIES, entries::with_bytes_beside_the_name),
    rule(11, TEXTS, texts::too_long),
    rule(12, TEXTS, texts::with_bytes_behind_the_text),
    rule(13, HANDLES, handles::open_with_other_bytes),
    rule(14, JOURNAL, journal_that_is_not_clear),
    rule(15, INODES, inodes::free_but_not_zero),
    rule(16, ENTRIES, entries::free_but_not_zero),
    rule(17, TEXTS, texts::free_but_not_zero),
    rule(18, HANDLES, handles::closed_but_not_zero),
    rule(19, INODES, inodes::with_a_mode_too_high),
    rule(20, INODES, inodes::root_that_is_no_directory),
    rule(21, ENTRIES, entries::that_target_root),
    rule(22, ENTRIES, entries::whose_parent_is_no_directory),
    rule(23, ENTRIES, entries::whose_target_is_free),
    rule(24, ENTRIES, entries::with_a_name_too_long),
    rule(25, ENTRIES, entries::with_a_zero_or_a_slash),
    rule(26, ENTRIES, entries::named_dot_or_dot_dot),
    rule(27, ENTRIES, entries::with_a_name_that_is_taken),
    rule(28, INODES, inodes::directories_without_just_one_entry),
    rule(29, ENTRIES, entries::of_directories_with_another_parent),
    rule(30, INODES, inodes::directories_that_do_not_lead_to_root),
    rule(31, INODES, inodes::directories_with_another_count),
    rule(32, INODES, inodes::non_directories_with_another_count),
    rule(33, INODES, inodes::non_directories_without_links),
    rule(34, INODES, inodes::with_too_many_links),
    rule(35, ENTRIES, entries::across_file_systems),
    rule(36, INODES, inodes::symlinks_without_text),
    rule(37, INODES, inodes::symlinks_with_a_text_that_is_taken),
    rule(38, TEXTS, texts::with_a_zero),
    rule(39, TEXTS, texts::without_symlink),
    rule(40, HANDLES, handles::open_on_nothing),
];

fn journal_that_is_not_clear(records: &Records) -> Vec<usize> {
    let clear = records.image.journal.iter().all(|&byte| byte == 0);
    (0..usize::from(!clear)).collect()
}
