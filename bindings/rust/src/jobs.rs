//! The four jobs on slices.

use crate::{raw, Number, CURRENT_DIRECTORY};

/// Who asks for a rename, from where, when, and of what.
#[derive(Clone, Copy, Debug, PartialEq, Eq)]
pub struct Request<'a> {
    /// The effective user.
    pub user: u32,
    /// The effective group.
    pub group: u32,
    /// The groups that the caller is in beside that one; more than [`crate::MOST_GROUPS`] are refused (202).
    pub groups: &'a [u32],
    /// The current directory, an inode.
    pub cwd: u16,
    /// Where the old path begins if it is relative: a handle, or [`CURRENT_DIRECTORY`].
    pub old_start: u8,
    /// The same of the new path.
    pub new_start: u8,
    /// The time to be set.
    pub now: u64,
    /// 0, [`crate::NO_REPLACE`] or [`crate::EXCHANGE`]; anything else is refused (22).
    pub flags: u32,
    pub old: &'a [u8],
    pub new: &'a [u8],
}

impl<'a> Request<'a> {
    /// A plain rename by user 0, from the root as the current directory, at time 0.
    pub fn new(old: &'a [u8], new: &'a [u8]) -> Self {
        let start = CURRENT_DIRECTORY;
        Request {
            user: 0,
            group: 0,
            groups: &[],
            cwd: 0,
            old_start: start,
            new_start: start,
            now: 0,
            flags: 0,
            old,
            new,
        }
    }
}

/// How a rename was answered. With a number other than 0 there are no rows, and the plan's buffer is as it was.
#[derive(Clone, Copy, Debug, PartialEq, Eq)]
pub struct Renamed {
    pub number: Number,
    /// How many rows the plan has: none for two names of one file.
    pub rows: usize,
    /// How many components of the old path, its symlinks' texts included, were looked at.
    pub old_steps: u16,
    /// The same of the new path.
    pub new_steps: u16,
}

/// How a repair was answered. With a number other than 0 there are no rows, and the plan's buffer is as it was.
#[derive(Clone, Copy, Debug, PartialEq, Eq)]
pub struct Repaired {
    pub number: Number,
    pub rows: usize,
}

/// The sixteen bits of a result from bit `low` on.
fn sixteen(result: u64, low: u32) -> u16 {
    (result >> low) as u16
}

fn number(result: u64) -> Number {
    Number(result as u8)
}

fn rows(result: u64) -> usize {
    usize::from((result >> 8) as u8)
}

/// Checks an image: 0 consistent, 203 a journal record is pending, 201 anything else.
pub fn check(image: &[u8]) -> Number {
    // SAFETY: the pointer and the length are those of one slice, which the call only reads.
    number(unsafe { raw::mp_check(image.as_ptr(), image.len()) })
}

/// Plans a rename, or an exchange: answers 0 and writes the first 648 bytes of `plan`, or is refused and writes nothing.
pub fn rename(image: &[u8], request: &Request, plan: &mut [u8]) -> Renamed {
    // SAFETY: each pointer and length are those of one slice; only the plan is written, and it overlaps none of them.
    let result = unsafe {
        raw::mp_rename(
            image.as_ptr(),
            image.len(),
            request.user,
            request.group,
            request.groups.as_ptr(),
            request.groups.len(),
            request.cwd,
            request.old_start,
            request.new_start,
            request.now,
            request.flags,
            request.old.as_ptr(),
            request.old.len(),
            request.new.as_ptr(),
            request.new.len(),
            plan.as_mut_ptr(),
            plan.len(),
        )
    };
    Renamed {
        number: number(result),
        rows: rows(result),
        old_steps: sixteen(result, 16),
        new_steps: sixteen(result, 32),
    }
}

/// Lands one row of a plan: answers 0 and writes one record of the image, or is refused and writes nothing.
pub fn land(image: &mut [u8], plan: &[u8], row: u64) -> Number {
    // SAFETY: each pointer and length are those of one slice; only the image is written, and the plan does not overlap it.
    number(unsafe { raw::mp_land(image.as_mut_ptr(), image.len(), plan.as_ptr(), plan.len(), row) })
}

/// Plans a repair after a crash: answers 0 and writes the first 648 bytes of `plan` and the outcome into `scratch`.
///
/// Refused by 204 it clears as much of the scratch as the image is long; refused by any other number it writes nothing.
pub fn repair(image: &[u8], plan: &mut [u8], scratch: &mut [u8]) -> Repaired {
    // SAFETY: each pointer and length are those of one slice; the plan and the scratch are written, and nothing overlaps.
    let result = unsafe {
        raw::mp_repair(image.as_ptr(), image.len(), plan.as_mut_ptr(), plan.len(), scratch.as_mut_ptr(), scratch.len())
    };
    Repaired { number: number(result), rows: rows(result) }
}
