//! Damage to the types, zero bytes, modes and free records of inodes, entries and texts.

use super::subject::{each, one_byte_each, spread, Subject};
use super::Images;
use crate::model::image::{NAME_MAX, TEXT_MAX};
use crate::model::layout::{ENTRIES, INODES, TEXTS};

pub fn inode_types(subject: &Subject) -> Images {
    // On a directory an unknown type breaks other rules too.
    let inodes = [spread(subject.non_directories()), spread(subject.used_inodes())].concat();
    each(inodes, &[4, 5, 128, 130, 255], |number, kind| subject.poke(subject.inode_at(number), kind))
}

pub fn file_fields(subject: &Subject) -> Images {
    each(spread(subject.files()), &[1, 256, 65_535], |number, field| {
        subject.poke_u16(subject.inode_at(number) + 14, field)
    })
}

pub fn root_field(subject: &Subject) -> Images {
    let mut fields = spread(subject.subdirectories());
    fields.extend([subject.tree.inodes.len(), 256, 2048, 65_535]);
    each(vec![0], &fields, |root, field| subject.poke_u16(subject.inode_at(root) + 14, field))
}

pub fn entry_pads(subject: &Subject) -> Images {
    each(spread(subject.used_slots()), &[(5, 1), (6, 1), (7, 1), (5, 255), (7, 128)], |slot, (at, value)| {
        subject.poke(subject.entry_at(slot) + at, value)
    })
}

/// Bytes after the name: the first, and the record's last.
pub fn name_fill(subject: &Subject) -> Images {
    let shorter = |&slot: &usize| subject.tree.entries[slot].name.len() < NAME_MAX;
    let slots: Vec<usize> = subject.used_slots().into_iter().filter(shorter).collect();
    let first = each(spread(slots.clone()), &[1, b'a', 255], |slot, value| {
        subject.poke(subject.entry_at(slot) + 8 + subject.tree.entries[slot].name.len(), value)
    });
    let last = each(spread(slots), &[1, 128], |slot, value| subject.poke(subject.entry_at(slot) + 7 + NAME_MAX, value));
    [first, last].concat()
}

pub fn text_lengths(subject: &Subject) -> Images {
    each(spread(subject.used_texts()), &[64, 65, 128, 255], |text, len| subject.poke(subject.text_at(text), len))
}

/// Bytes after the text: the first, and the record's last.
pub fn text_fill(subject: &Subject) -> Images {
    let shorter = |&text: &usize| subject.tree.texts[text].len() < TEXT_MAX;
    let texts: Vec<usize> = subject.used_texts().into_iter().filter(shorter).collect();
    let first = each(spread(texts.clone()), &[1, b'a', 255], |text, value| {
        subject.poke(subject.text_at(text) + 1 + subject.tree.texts[text].len(), value)
    });
    let last = each(spread(texts), &[1, 128], |text, value| subject.poke(subject.text_at(text) + TEXT_MAX, value));
    [first, last].concat()
}

pub fn free_inodes(subject: &Subject) -> Images {
    one_byte_each(subject, subject.free_inodes(), INODES, 0)
}

pub fn freed_inodes(subject: &Subject) -> Images {
    each(spread(subject.used_inodes()), &[0], |number, kind| subject.poke(subject.inode_at(number), kind))
}

pub fn free_entries(subject: &Subject) -> Images {
    one_byte_each(subject, subject.free_slots(), ENTRIES, 4)
}

pub fn freed_entries(subject: &Subject) -> Images {
    each(spread(subject.used_slots()), &[0], |slot, len| subject.poke(subject.entry_at(slot) + 4, len))
}

pub fn free_texts(subject: &Subject) -> Images {
    one_byte_each(subject, subject.free_texts(), TEXTS, 0)
}

pub fn freed_texts(subject: &Subject) -> Images {
    each(spread(subject.used_texts()), &[0], |text, len| subject.poke(subject.text_at(text), len))
}

pub fn modes(subject: &Subject) -> Images {
    let raised = each(spread(subject.used_inodes()), &[0x1000, 0x2000, 0x8000], |number, high| {
        let mode = usize::from(subject.tree.inodes[number].mode) | high;
        subject.poke_u16(subject.inode_at(number) + 2, mode)
    });
    let set = each(spread(subject.used_inodes()), &[4096, 65_535], |number, mode| {
        subject.poke_u16(subject.inode_at(number) + 2, mode)
    });
    [raised, set].concat()
}
