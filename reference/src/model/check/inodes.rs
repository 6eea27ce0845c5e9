//! Inodes that break a rule.

use super::records::{all_zero, those, Records};
use crate::model::image::{DIRECTORY, FILE, FREE, LINKS_MAX, SYMLINK};

const MODE_LIMIT: u16 = 4096;

/// Rule 6.
pub fn of_unknown_type(records: &Records) -> Vec<usize> {
    those(records.inodes(), |_, inode| !matches!(inode.kind(), FREE | FILE | DIRECTORY | SYMLINK))
}

/// Rule 8.
pub fn files_with_a_field(records: &Records) -> Vec<usize> {
    those(records.inodes_of(FILE), |_, file| file.field() != 0)
}

/// Rule 9, which is about a directory's parent: what else root may be has its own rules.
pub fn root_with_another_parent(records: &Records) -> Vec<usize> {
    those(records.inodes_of(DIRECTORY).take(1), |number, root| number == 0 && root.field() != 0)
}

/// Rule 15.
pub fn free_but_not_zero(records: &Records) -> Vec<usize> {
    those(records.free_inodes(), |_, inode| !all_zero(inode.0))
}

/// Rule 19.
pub fn with_a_mode_too_high(records: &Records) -> Vec<usize> {
    those(records.used_inodes(), |_, inode| inode.mode() >= MODE_LIMIT)
}

/// Rule 20. A type that is not known has rule 6 alone.
pub fn root_that_is_no_directory(records: &Records) -> Vec<usize> {
    those(records.inodes().take(1), |_, root| matches!(root.kind(), FREE | FILE | SYMLINK))
}

/// Rule 28.
pub fn directories_without_just_one_entry(records: &Records) -> Vec<usize> {
    those(records.inodes_of(DIRECTORY), |number, _| number != 0 && records.names[number] != 1)
}

/// Rule 30.
pub fn directories_that_do_not_lead_to_root(records: &Records) -> Vec<usize> {
    let mut leads = vec![None; records.names.len()];
    leads[0] = Some(true);
    let directories = records.inodes_of(DIRECTORY);
    directories.map(|(start, _)| start).filter(|&start| !leads_to_root(records, start, &mut leads)).collect()
}

/// Climbs until it is known whether the way leads to root, and marks the way with that, so that no step is taken twice.
fn leads_to_root(records: &Records, start: usize, leads: &mut [Option<bool>]) -> bool {
    let mut way = vec![];
    let mut at = start;
    let found = loop {
        if let Some(known) = leads[at] {
            break known;
        }
        // For as long as nothing better is known: a ring comes back to here.
        leads[at] = Some(false);
        way.push(at);
        let parent = records.image.inode(at as u16).map_or(0, |inode| inode.field());
        if !records.image.is_directory(parent) {
            break false;
        }
        at = parent.into();
    };
    way.into_iter().for_each(|passed| leads[passed] = Some(found));
    found
}

/// Rule 31.
pub fn directories_with_another_count(records: &Records) -> Vec<usize> {
    those(records.inodes_of(DIRECTORY), |number, inode| inode.links() != 2 + records.subdirectories[number])
}

/// Rule 32.
pub fn non_directories_with_another_count(records: &Records) -> Vec<usize> {
    those(records.non_directories(), |number, inode| inode.links() != records.names[number])
}

/// Rule 33.
pub fn non_directories_without_links(records: &Records) -> Vec<usize> {
    those(records.non_directories(), |_, inode| inode.links() == 0)
}

/// Rule 34.
pub fn with_too_many_links(records: &Records) -> Vec<usize> {
    those(records.used_inodes(), |_, inode| inode.links() > LINKS_MAX)
}

/// Rule 36.
pub fn symlinks_without_text(records: &Records) -> Vec<usize> {
    those(records.inodes_of(SYMLINK), |_, symlink| records.text_of(symlink).is_none())
}

/// Rule 37, asked where the text is in use.
pub fn symlinks_with_a_text_that_is_taken(records: &Records) -> Vec<usize> {
    let mut taken = vec![false; records.image.texts().count()];
    let mut is_taken = |text: usize| std::mem::replace(&mut taken[text], true);
    let symlinks = records.inodes_of(SYMLINK);
    let texts = symlinks.filter_map(|(number, symlink)| Some((number, records.text_of(symlink)?)));
    texts.filter(|&(_, text)| is_taken(text)).map(|(number, _)| number).collect()
}
