//! Reads a file of test vectors back, strictly.

use super::{Buffer, Case, Comparing, Landing, Renaming, Repairing, Scratch, Walking};
use super::{BASE, CHECK, COMPARE, LAND, RENAME, RENAME_WITH_FLAGS, RENAME_WITH_GROUPS, REPAIR, WALK};
use super::{LONGEST_BASE, LONGEST_CASE, LONGEST_PATH, LONGEST_PLAN, LONGEST_SCRATCH, MOST_EDITS, MOST_GROUPS};
use crate::model::permission::Credentials;
use crate::model::request::{Operand, Request};

/// The cases of a file in order; nothing where the file breaks its format.
pub fn read(data: &[u8]) -> Option<Vec<Case>> {
    let mut reader = Reader { rest: data };
    let mut base = vec![];
    let mut cases = vec![];
    while !reader.rest.is_empty() {
        match reader.u8()? {
            BASE => {
                let len = reader.u32_up_to(LONGEST_BASE)?;
                base = reader.take(len)?.to_vec();
            }
            CHECK => cases.push(Case::Check(reader.image(&base)?)),
            WALK => cases.push(Case::Walk(reader.walking(&base)?)),
            LAND => cases.push(Case::Land(reader.landing(&base)?)),
            RENAME => cases.push(Case::Rename(reader.renaming(&base, Reader::nothing_more)?)),
            REPAIR => cases.push(Case::Repair(reader.repairing(&base)?)),
            RENAME_WITH_GROUPS => cases.push(Case::RenameWithGroups(reader.renaming(&base, Reader::groups)?)),
            RENAME_WITH_FLAGS => {
                cases.push(Case::RenameWithFlags(reader.renaming(&base, Reader::flags_and_groups)?));
            }
            COMPARE => cases.push(Case::Compare(reader.comparing()?)),
            _ => return None,
        }
    }
    Some(cases)
}

struct Reader<'a> {
    rest: &'a [u8],
}

impl<'a> Reader<'a> {
    fn take(&mut self, len: usize) -> Option<&'a [u8]> {
        let (taken, rest) = self.rest.split_at_checked(len)?;
        self.rest = rest;
        Some(taken)
    }

    fn u8(&mut self) -> Option<u8> {
        Some(self.take(1)?[0])
    }

    fn u16(&mut self) -> Option<u16> {
        Some(u16::from_le_bytes(self.take(2)?.try_into().ok()?))
    }

    fn u32(&mut self) -> Option<u32> {
        Some(u32::from_le_bytes(self.take(4)?.try_into().ok()?))
    }

    fn u64(&mut self) -> Option<u64> {
        Some(u64::from_le_bytes(self.take(8)?.try_into().ok()?))
    }

    fn u32_up_to(&mut self, limit: usize) -> Option<usize> {
        usize::try_from(self.u32()?).ok().filter(|&value| value <= limit)
    }

    /// The base cut or extended, then edited.
    fn image(&mut self, base: &[u8]) -> Option<Vec<u8>> {
        let mut image = base.to_vec();
        image.resize(self.u32_up_to(LONGEST_CASE)?, 0);
        self.edit(&mut image)?;
        Some(image)
    }

    fn edit(&mut self, image: &mut [u8]) -> Option<()> {
        let edits = usize::from(self.u8()?);
        for _ in 0..edits {
            let at = self.u32()? as usize;
            *image.get_mut(at)? = self.u8()?;
        }
        (edits <= MOST_EDITS).then_some(())
    }

    fn walking(&mut self, base: &[u8]) -> Option<Walking> {
        let mut image = base.to_vec();
        self.edit(&mut image)?;
        let request = self.caller()?;
        let request = self.paths(request)?;
        Some(Walking { image, request })
    }

    /// The kinds of rename cases differ in what they tell behind the time.
    fn renaming(&mut self, base: &[u8], more: fn(&mut Self, &mut Request) -> Option<()>) -> Option<Renaming> {
        let image = self.image(base)?;
        let buffer = self.buffer()?;
        let mut request = self.caller()?;
        let now = self.u64()?;
        more(self, &mut request)?;
        let request = self.paths(request)?;
        Some(Renaming { image, buffer, request, now })
    }

    fn nothing_more(&mut self, _: &mut Request) -> Option<()> {
        Some(())
    }

    fn groups(&mut self, request: &mut Request) -> Option<()> {
        let count = usize::from(self.u16()?);
        let listed: Option<Vec<u32>> = (count <= MOST_GROUPS).then(|| (0..count).map(|_| self.u32()).collect())?;
        request.who.further = listed?;
        Some(())
    }

    fn flags_and_groups(&mut self, request: &mut Request) -> Option<()> {
        request.flags = self.u32()?;
        self.groups(request)
    }

    fn repairing(&mut self, base: &[u8]) -> Option<Repairing> {
        let image = self.image(base)?;
        let plan = self.buffer()?;
        let scratch = Scratch { len: self.u32_up_to(LONGEST_SCRATCH)? as u32, fill: self.u8()? };
        Some(Repairing { image, plan, scratch })
    }

    fn comparing(&mut self) -> Option<Comparing> {
        let lens = [usize::from(self.u8()?), usize::from(self.u8()?)];
        Some(Comparing { first: self.take(lens[0])?.to_vec(), second: self.take(lens[1])?.to_vec() })
    }

    fn buffer(&mut self) -> Option<Buffer> {
        let buffer = Buffer { len: self.u16()?, fill: self.u8()? };
        (usize::from(buffer.len) <= LONGEST_PLAN).then_some(buffer)
    }

    /// A request whose paths are still to be read.
    fn caller(&mut self) -> Option<Request> {
        let who = Credentials::new(self.u32()?, self.u32()?);
        let current = self.u16()?;
        let (old, new) = (Operand::new(self.u8()?, b""), Operand::new(self.u8()?, b""));
        Some(Request { who, current, flags: 0, old, new })
    }

    fn paths(&mut self, mut request: Request) -> Option<Request> {
        let lens = [usize::from(self.u16()?), usize::from(self.u16()?)];
        request.old.path = self.take(lens[0])?.to_vec();
        request.new.path = self.take(lens[1])?.to_vec();
        lens.iter().all(|&len| len <= LONGEST_PATH).then_some(request)
    }

    fn landing(&mut self, base: &[u8]) -> Option<Landing> {
        let image = self.image(base)?;
        let mut plan = vec![0; usize::from(self.u16()?)];
        for _ in 0..self.u8()? {
            let (at, len) = (usize::from(self.u16()?), usize::from(self.u8()?));
            plan.get_mut(at..at + len)?.copy_from_slice(self.take(len)?);
        }
        let row = self.u64()?;
        (plan.len() <= LONGEST_PLAN).then_some(Landing { image, plan, row })
    }
}
