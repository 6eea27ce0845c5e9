//! The journal record in words.

use crate::image::{operation, Journal, ABSENT};

const PENDING: u8 = 1;

pub fn line(journal: &Journal) -> String {
    match (journal.mark, journal.kind) {
        _ if *journal == Journal::default() => "journal clear\n".to_owned(),
        _ if journal.rest != Journal::default().rest => unreadable(journal),
        (PENDING, operation::RENAME) => rename(journal),
        (PENDING, operation::EXCHANGE) if journal.text == ABSENT => exchange(journal),
        _ => unreadable(journal),
    }
}

fn rename(journal: &Journal) -> String {
    let Journal { old_slot, new_slot, moved, replaced, old_parent, text, time, .. } = journal;
    let replacing = if *replaced == ABSENT { String::new() } else { format!(", replacing inode {replaced}") };
    let freeing = if *text == ABSENT { String::new() } else { format!(", freeing text {text}") };
    format!(
        "journal pending: rename of inode {moved} from slot {old_slot} in inode {old_parent} to slot {new_slot}\
         {replacing}{freeing}, at time {time}\n"
    )
}

fn exchange(journal: &Journal) -> String {
    let Journal { old_slot, new_slot, moved, replaced, old_parent, time, .. } = journal;
    format!(
        "journal pending: exchange of inode {moved} in slot {old_slot} of inode {old_parent} and inode {replaced} \
         in slot {new_slot}, at time {time}\n"
    )
}

/// A record that no rename and no exchange writes: all its numbers.
fn unreadable(journal: &Journal) -> String {
    let Journal { mark, kind, old_slot, new_slot, moved, replaced, old_parent, text, time, rest } = journal;
    let others = rest.iter().filter(|&&byte| byte != 0).count();
    format!(
        "journal unreadable: mark {mark}, kind {kind}, old slot {old_slot}, new slot {new_slot}, moved {moved}, \
         replaced {replaced}, old parent {old_parent}, text {text}, time {time}, and {others} other bytes that are not 0\n"
    )
}
