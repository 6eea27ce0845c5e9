//! The records of an image as arrays, so that no field's place in its record has to be checked when it is read.

use crate::model::image::{Inode, DIRECTORY};
use crate::model::layout::{CONTENTS_LEN, ROW_LEN, SECTIONS};

/// The bytes of an image with a right layout; its records may hold anything.
pub struct Image<'a> {
    pub inodes: &'a [[u8; 32]],
    pub entries: &'a [[u8; 32]],
    pub texts: &'a [[u8; 64]],
    pub handles: &'a [[u8; 8]],
    pub journal: &'a [u8; 32],
    /// Where each section begins.
    pub offsets: [usize; 5],
}

impl<'a> Image<'a> {
    /// Rules 1 to 5: one pass over the rows. The counts are narrow and the sums wide, so that none can wrap.
    pub fn read(bytes: &'a [u8]) -> Option<Image<'a>> {
        let (contents, mut rest) = bytes.split_at_checked(CONTENTS_LEN)?;
        let mut offsets = [CONTENTS_LEN; 5];
        let mut sections = [rest; 5];
        for (i, (row, rule)) in contents.as_chunks::<ROW_LEN>().0.iter().zip(&SECTIONS).enumerate() {
            let [n0, n1, n2, n3, o0, o1, c0, c1] = *row;
            let count = usize::from(u16::from_le_bytes([c0, c1]));
            offsets[i] = bytes.len() - rest.len();
            if [n0, n1, n2, n3] != *rule.name || usize::from(u16::from_le_bytes([o0, o1])) != offsets[i] {
                return None;
            }
            if !rule.counts.contains(&count) {
                return None;
            }
            (sections[i], rest) = rest.split_at_checked(count * rule.record_len)?;
        }
        let [inodes, entries, texts, handles, journal] = sections;
        rest.is_empty().then_some(Image {
            inodes: inodes.as_chunks().0,
            entries: entries.as_chunks().0,
            texts: texts.as_chunks().0,
            handles: handles.as_chunks().0,
            journal: journal.first_chunk()?,
            offsets,
        })
    }

    pub fn journal_is_clear(&self) -> bool {
        *self.journal == [0; 32]
    }

    /// Nothing where the number is beyond the count.
    pub fn inode(&self, number: u16) -> Option<Inode<'a>> {
        self.inodes.get(usize::from(number)).map(|record| Inode(record))
    }

    pub fn is_directory(&self, number: u16) -> bool {
        self.inode(number).is_some_and(|inode| inode.kind() == DIRECTORY)
    }
}
