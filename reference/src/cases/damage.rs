//! Damaged images: every rule of the layout, of the records and of the journal record broken.

mod contents;
mod directories;
mod entries;
mod file_systems;
mod handles;
mod journal;
mod links;
pub mod random_changes;
mod records;
pub mod subject;
mod symlinks;

use crate::model::check::{is_layout_rule, JOURNAL_RULE};
use crate::model::numbers::{DONE, INCONSISTENT, JOURNAL_PENDING};

use subject::Subject;

pub type Images = Vec<Vec<u8>>;

/// What a damage does to a consistent image.
#[derive(Clone, Copy, Debug, PartialEq, Eq)]
pub enum Breaks {
    Nothing,
    Layout,
    Journal,
    /// Of these rules, one at least.
    Rules(&'static [u8]),
}

impl Breaks {
    pub fn answer(self) -> u8 {
        match self {
            Breaks::Nothing => DONE,
            Breaks::Layout | Breaks::Rules(_) => INCONSISTENT,
            Breaks::Journal => JOURNAL_PENDING,
        }
    }

    /// Whether the rules that an image breaks are as they should be.
    pub fn is_among(self, broken: &[u8]) -> bool {
        match self {
            Breaks::Nothing => broken.is_empty(),
            Breaks::Layout => broken.iter().any(|&rule| is_layout_rule(rule)),
            Breaks::Journal => broken.contains(&JOURNAL_RULE),
            Breaks::Rules(rules) => rules.iter().any(|rule| broken.contains(rule)),
        }
    }
}

/// One way to change an image. It gives no images where the tree lacks what it needs.
pub struct Clause {
    pub name: &'static str,
    pub breaks: Breaks,
    pub images: fn(&Subject) -> Images,
}

pub const fn clause(name: &'static str, breaks: Breaks, images: fn(&Subject) -> Images) -> Clause {
    Clause { name, breaks, images }
}

const fn rule(name: &'static str, broken: &'static [u8], images: fn(&Subject) -> Images) -> Clause {
    clause(name, Breaks::Rules(broken), images)
}

/// The table of contents and the length.
pub const LAYOUT_CLAUSES: &[Clause] = &[
    clause("section name, one letter", Breaks::Layout, contents::name_letters),
    clause("section names exchanged", Breaks::Layout, contents::names_exchanged),
    clause("section name of another edition", Breaks::Layout, contents::other_names),
    clause("offset changed", Breaks::Layout, contents::offsets_changed),
    clause("offsets that overlap", Breaks::Layout, contents::offsets_overlap),
    clause("gap ahead of a section", Breaks::Layout, contents::gaps),
    clause("count changed alone", Breaks::Layout, contents::counts_changed),
    clause("count out of range, all else fitting", Breaks::Layout, contents::counts_out_of_range),
    clause("counts that wrap at 65536", Breaks::Layout, contents::wrapping_counts),
    clause("contents, one byte", Breaks::Layout, contents::any_byte),
    clause("length near the right one", Breaks::Layout, contents::near_lengths),
    clause("length far from the right one", Breaks::Layout, contents::far_lengths),
];

/// The rules of the records. Their order is that of the stored cases, and stays.
pub const RECORD_CLAUSES: &[Clause] = &[
    rule("inode type unknown", &[6], records::inode_types),
    rule("file with a field", &[8], records::file_fields),
    rule("root with another parent", &[9], records::root_field),
    rule("entry pad", &[10], records::entry_pads),
    rule("name fill", &[10], records::name_fill),
    rule("text length over 63", &[11], records::text_lengths),
    rule("text fill", &[12], records::text_fill),
    rule("handle state unknown", &[7], handles::states),
    rule("handle's second byte", &[13], handles::second_bytes),
    rule("handle pad", &[13], handles::pads),
    rule("free inode, one byte", &[15], records::free_inodes),
    rule("inode freed without clearing", &[15], records::freed_inodes),
    rule("free entry, one byte", &[16], records::free_entries),
    rule("entry freed without clearing", &[16], records::freed_entries),
    rule("free text, one byte", &[17], records::free_texts),
    rule("text freed without clearing", &[17], records::freed_texts),
    rule("closed handle, one byte", &[18], handles::closed),
    rule("handle closed without clearing", &[18], handles::freed),
    rule("mode over 4095", &[19], records::modes),
    rule("root no directory", &[20, 6], directories::root_kinds),
    rule("entry that targets root", &[21], directories::root_targeted),
    rule("entry parent no directory", &[22], entries::parents_no_directory),
    rule("entry parent free", &[22], entries::parents_free),
    rule("entry parent beyond the count", &[22], entries::parents_beyond),
    rule("entry target free", &[23], entries::targets_free),
    rule("new entry with target free", &[23], entries::new_targets_free),
    rule("entry target beyond the count", &[23], entries::targets_beyond),
    rule("new entry with target beyond", &[23], entries::new_targets_beyond),
    rule("name length over 24", &[24], entries::name_lengths),
    rule("name with byte 0", &[25], entries::names_with_zero),
    rule("name with a slash", &[25], entries::names_with_slash),
    rule("name dot or dot-dot", &[26], entries::dot_names),
    rule("name twice in a directory", &[27], entries::same_names),
    rule("name twice, first and last slot", &[27], entries::same_names_at_the_ends),
    rule("directory without entry", &[28], directories::no_entry),
    rule("directory with two entries", &[28], directories::two_entries),
    rule("directory in two directories", &[28], directories::two_parents),
    rule("parent field of another", &[29], directories::parent_fields),
    rule("directory inside itself", &[30], directories::cycles_of_one),
    rule("cycle of two directories", &[30], directories::cycles_of_two),
    rule("cycle of three directories", &[30], directories::cycles_of_three),
    rule("directory link count", &[31], links::directory_counts),
    rule("other link count", &[32], links::other_counts),
    rule("file without a name", &[33], links::nameless_files),
    rule("last name removed", &[33], links::last_names_removed),
    rule("65 names", &[34], links::too_many_names),
    rule("63 subdirectories", &[34], links::too_many_subdirectories),
    rule("file system of a non-directory", &[35], file_systems::of_non_directories),
    rule("file system of one directory", &[35], file_systems::of_directories),
    rule("symlink with text free", &[36], symlinks::texts_free),
    rule("symlink with text beyond", &[36], symlinks::texts_beyond),
    rule("text shared by two symlinks", &[37], symlinks::texts_shared),
    rule("text with byte 0", &[38], symlinks::texts_with_zero),
    rule("text without symlink", &[39], symlinks::texts_alone),
    rule("handle on a free inode", &[40], handles::on_free),
    rule("handle beyond the count", &[40], handles::beyond),
];

/// The journal record, which is looked at after the layout and ahead of the other records.
pub const JOURNAL_CLAUSES: &[Clause] = &[
    clause("journal, one byte", Breaks::Journal, journal::any_byte),
    clause("journal without mark", Breaks::Journal, journal::without_mark),
    clause("journal as a rename writes it", Breaks::Journal, journal::like_a_rename),
    clause("journal and broken records", Breaks::Journal, journal::with_broken_records),
    clause("journal and broken layout", Breaks::Layout, journal::with_broken_layout),
];

#[cfg(test)]
mod tests {
    use super::*;
    use crate::cases::trees::samples::samples;
    use crate::model::check::{broken_rules, check};

    fn subjects() -> impl Iterator<Item = Subject> {
        samples().into_iter().map(|(_, tree)| Subject::new(tree))
    }

    #[test]
    fn every_damage_is_refused() {
        for clause in [LAYOUT_CLAUSES, RECORD_CLAUSES, JOURNAL_CLAUSES].into_iter().flatten() {
            let images: Images = subjects().flat_map(|subject| (clause.images)(&subject)).collect();
            assert!(!images.is_empty(), "{} has no case", clause.name);
            for image in images {
                assert_eq!(check(&image), clause.breaks.answer(), "{}", clause.name);
            }
        }
    }

    #[test]
    fn every_record_damage_breaks_its_rule() {
        for clause in RECORD_CLAUSES {
            for image in subjects().flat_map(|subject| (clause.images)(&subject)) {
                assert!(clause.breaks.is_among(&broken_rules(&image)), "{}", clause.name);
            }
        }
    }
}
