//! Where the records of an image lie: the table of contents, and rules 1 to 5, which are about it.

use super::fault::Fault;
use std::ops::{Range, RangeInclusive};

/// What the format fixes about one section.
pub struct SectionRule {
    pub name: &'static [u8; 4],
    pub record_len: usize,
    pub counts: RangeInclusive<usize>,
}

const fn section(name: &'static [u8; 4], record_len: usize, least: usize, most: usize) -> SectionRule {
    SectionRule { name, record_len, counts: least..=most }
}

/// The sections in the order of the table of contents: inodes, directory entries, symlink texts,
/// handles, and the journal record.
pub const SECTIONS: [SectionRule; 5] = [
    section(b"NODE", 32, 1, 512),
    section(b"LINK", 32, 0, 1024),
    section(b"TEXT", 64, 0, 64),
    section(b"HAND", 8, 0, 16),
    section(b"NOTE", 32, 1, 1),
];

pub const INODES: usize = 0;
pub const ENTRIES: usize = 1;
pub const TEXTS: usize = 2;
pub const HANDLES: usize = 3;
pub const JOURNAL: usize = 4;

pub const ROW_LEN: usize = 8;
pub const CONTENTS_LEN: usize = SECTIONS.len() * ROW_LEN;

/// Offsets that follow from the five record counts: wide integers, so that no sum can wrap.
#[derive(Clone, Debug, PartialEq, Eq)]
pub struct Layout {
    pub offsets: [usize; 5],
    pub counts: [usize; 5],
}

impl Layout {
    /// The layout of an image whose table of contents is right; nothing where any part of it is wrong.
    pub fn read(bytes: &[u8]) -> Option<Layout> {
        let layout = Layout::as_counted(bytes)?;
        layout_faults(bytes).next().is_none().then_some(layout)
    }

    /// What the counts lead to as they stand, right or wrong; nothing where the rows themselves are cut.
    fn as_counted(bytes: &[u8]) -> Option<Layout> {
        let contents = bytes.get(..CONTENTS_LEN)?;
        Some(Layout::of_counts(std::array::from_fn(|section| u16_at(contents, section * ROW_LEN + 6).into())))
    }

    pub fn of_counts(counts: [usize; 5]) -> Layout {
        let mut offsets = [CONTENTS_LEN; 5];
        for i in 1..5 {
            offsets[i] = offsets[i - 1] + counts[i - 1] * SECTIONS[i - 1].record_len;
        }
        Layout { offsets, counts }
    }

    pub fn image_len(&self) -> usize {
        self.offsets[JOURNAL] + self.counts[JOURNAL] * SECTIONS[JOURNAL].record_len
    }

    pub fn section(&self, section: usize) -> Range<usize> {
        let start = self.offsets[section];
        start..start + self.counts[section] * SECTIONS[section].record_len
    }

    /// The position of a record's first byte.
    pub fn position(&self, section: usize, record: usize) -> usize {
        self.offsets[section] + record * SECTIONS[section].record_len
    }
}

/// A rule about the table of contents: its number, the sections of which it is asked, and whether one breaks it.
pub struct LayoutRule {
    pub number: u8,
    sections: Range<usize>,
    broken: fn(&[u8], usize) -> bool,
}

const fn rule(number: u8, sections: Range<usize>, broken: fn(&[u8], usize) -> bool) -> LayoutRule {
    LayoutRule { number, sections, broken }
}

/// Rules 1 to 5. Without the rows of rule 1 the others have no meaning, and none of them is broken.
pub const LAYOUT_RULES: [LayoutRule; 5] = [
    rule(1, INODES..INODES + 1, rows_are_cut),
    rule(2, 0..SECTIONS.len(), is_named_otherwise),
    rule(3, 0..SECTIONS.len(), is_said_to_begin_elsewhere),
    rule(4, JOURNAL..JOURNAL + 1, ends_elsewhere),
    rule(5, 0..SECTIONS.len(), count_is_out_of_range),
];

/// What is wrong with the layout, each fault at record 0 of its section.
pub fn layout_faults(bytes: &[u8]) -> impl Iterator<Item = Fault> + '_ {
    LAYOUT_RULES.iter().flat_map(move |rule| {
        let sections = rule.sections.clone().filter(move |&section| (rule.broken)(bytes, section));
        sections.map(move |section| Fault { section, record: 0, rule: rule.number })
    })
}

fn rows_are_cut(bytes: &[u8], _: usize) -> bool {
    bytes.len() < CONTENTS_LEN
}

fn is_named_otherwise(bytes: &[u8], section: usize) -> bool {
    let contents = bytes.get(..CONTENTS_LEN);
    contents.is_some_and(|contents| !contents[section * ROW_LEN..].starts_with(SECTIONS[section].name))
}

fn is_said_to_begin_elsewhere(bytes: &[u8], section: usize) -> bool {
    let said = |bytes: &[u8]| usize::from(u16_at(bytes, section * ROW_LEN + 4));
    Layout::as_counted(bytes).is_some_and(|layout| layout.offsets[section] != said(bytes))
}

fn ends_elsewhere(bytes: &[u8], _: usize) -> bool {
    Layout::as_counted(bytes).is_some_and(|layout| layout.image_len() != bytes.len())
}

fn count_is_out_of_range(bytes: &[u8], section: usize) -> bool {
    Layout::as_counted(bytes).is_some_and(|layout| !SECTIONS[section].counts.contains(&layout.counts[section]))
}

pub(super) fn u16_at(bytes: &[u8], at: usize) -> u16 {
    u16::from_le_bytes([bytes[at], bytes[at + 1]])
}
