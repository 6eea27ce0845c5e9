//! Where the records of an image stand: the table of contents and the size of each record.

/// The five kinds of records, in the order of the table of contents.
#[derive(Clone, Copy, Debug, PartialEq, Eq)]
pub enum Section {
    Inodes,
    Entries,
    Texts,
    Handles,
    Journal,
}

impl Section {
    pub const ALL: [Section; 5] =
        [Section::Inodes, Section::Entries, Section::Texts, Section::Handles, Section::Journal];

    /// The name in the table of contents.
    pub fn name(self) -> &'static str {
        ["NODE", "LINK", "TEXT", "HAND", "NOTE"][self as usize]
    }

    /// The bytes of one record.
    pub fn size(self) -> usize {
        [32, 32, 64, 8, 32][self as usize]
    }

    /// How many records there are at least and at most.
    pub fn counts(self) -> (usize, usize) {
        [(1, 512), (0, 1024), (0, 64), (0, 16), (1, 1)][self as usize]
    }
}

/// The bytes of one row of the table of contents, and of all of it.
pub const ROW: usize = 8;
pub const TABLE: usize = 5 * ROW;

/// A section of an image: where it begins and how many records it has.
#[derive(Clone, Copy, Debug, PartialEq, Eq)]
pub struct Part {
    pub section: Section,
    pub offset: usize,
    pub count: usize,
}

/// The sections of an image, or a sentence that says what is wrong with its layout.
pub fn parts(bytes: &[u8]) -> Result<[Part; 5], String> {
    if bytes.len() < TABLE {
        return Err(format!("it has {} bytes, and a table of contents alone has {TABLE}", bytes.len()));
    }
    let mut expected = TABLE;
    let mut parts = [Part { section: Section::Inodes, offset: 0, count: 0 }; 5];
    for (part, section) in parts.iter_mut().zip(Section::ALL) {
        *part = part_of(section, &bytes[ROW * section as usize..][..ROW], expected)?;
        expected += section.size() * part.count;
    }
    match bytes.len() == expected {
        true => Ok(parts),
        false => Err(format!("by its table of contents it ends at {expected}, and it has {} bytes", bytes.len())),
    }
}

fn part_of(section: Section, row: &[u8], expected: usize) -> Result<Part, String> {
    let name = section.name();
    if &row[..4] != name.as_bytes() {
        return Err(format!("its table of contents has no section {name} in its place"));
    }
    let word = |at: usize| usize::from(u16::from_le_bytes([row[at], row[at + 1]]));
    let (offset, count) = (word(4), word(6));
    let (least, most) = section.counts();
    if count < least || most < count {
        return Err(format!("section {name} has {count} records, where {least} to {most} are allowed"));
    }
    match offset == expected {
        true => Ok(Part { section, offset, count }),
        false => Err(format!("section {name} is said to begin at {offset}, and it begins at {expected}")),
    }
}

/// The section and the number of the record that begins at an offset, in an image of a good layout.
pub fn record_at(bytes: &[u8], offset: usize) -> Option<(Section, usize)> {
    let parts = parts(bytes).ok()?;
    parts.iter().find_map(|part| {
        let inside = offset.checked_sub(part.offset)?;
        let size = part.section.size();
        (inside % size == 0 && inside / size < part.count).then_some((part.section, inside / size))
    })
}
