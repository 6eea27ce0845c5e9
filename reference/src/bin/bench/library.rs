//! The jobs of the proved library's archive, and those of the plain program with their answers packed alike.

use mirepillar_reference::bench::requests::NOW;
use mirepillar_reference::model::request::Request;
use mirepillar_reference::plain;

extern "C" {
    fn mp_check(image: *const u8, image_len: usize) -> u64;

    fn mp_rename(
        image: *const u8,
        image_len: usize,
        user: u32,
        group: u32,
        groups: *const u32,
        groups_len: usize,
        current: u16,
        old_start: u8,
        new_start: u8,
        now: u64,
        flags: u32,
        old: *const u8,
        old_len: usize,
        new: *const u8,
        new_len: usize,
        plan: *mut u8,
        plan_len: usize,
    ) -> u64;

    fn mp_land(image: *mut u8, image_len: usize, plan: *const u8, plan_len: usize, row: u64) -> u64;

    fn mp_repair(
        image: *const u8,
        image_len: usize,
        plan: *mut u8,
        plan_len: usize,
        scratch: *mut u8,
        scratch_len: usize,
    ) -> u64;
}

/// The jobs of one program.
#[derive(Clone, Copy)]
pub struct Jobs {
    pub check: fn(&[u8]) -> u64,
    pub rename: fn(&[u8], &Request, &mut [u8]) -> u64,
    pub land: fn(&mut [u8], &[u8], u64) -> u64,
    pub repair: fn(&[u8], &mut [u8], &mut [u8]) -> u64,
}

pub const LIBRARY: Jobs =
    Jobs { check: library_check, rename: library_rename, land: library_land, repair: library_repair };
pub const PLAIN: Jobs = Jobs { check: plain_check, rename: plain_rename, land: plain_land, repair: plain_repair };

fn library_check(image: &[u8]) -> u64 {
    // SAFETY: the pointer and the length are those of one slice, which the call only reads.
    unsafe { mp_check(image.as_ptr(), image.len()) }
}

fn library_rename(image: &[u8], request: &Request, plan: &mut [u8]) -> u64 {
    let (who, old, new) = (&request.who, &request.old, &request.new);
    // SAFETY: each pointer and length are those of one slice or vector, and only the plan is written.
    unsafe {
        mp_rename(
            image.as_ptr(),
            image.len(),
            who.user,
            who.group,
            who.further.as_ptr(),
            who.further.len(),
            request.current,
            old.start,
            new.start,
            NOW,
            request.flags,
            old.path.as_ptr(),
            old.path.len(),
            new.path.as_ptr(),
            new.path.len(),
            plan.as_mut_ptr(),
            plan.len(),
        )
    }
}

fn library_land(image: &mut [u8], plan: &[u8], row: u64) -> u64 {
    // SAFETY: each pointer and length are those of one slice, and only the image is written.
    unsafe { mp_land(image.as_mut_ptr(), image.len(), plan.as_ptr(), plan.len(), row) }
}

fn library_repair(image: &[u8], plan: &mut [u8], scratch: &mut [u8]) -> u64 {
    // SAFETY: each pointer and length are those of one slice, and only the plan and the scratch are written.
    unsafe {
        mp_repair(image.as_ptr(), image.len(), plan.as_mut_ptr(), plan.len(), scratch.as_mut_ptr(), scratch.len())
    }
}

fn plain_check(image: &[u8]) -> u64 {
    plain::check(image).into()
}

fn plain_rename(image: &[u8], request: &Request, plan: &mut [u8]) -> u64 {
    let answer = plain::rename(image, request, NOW, plan);
    let [old, new] = answer.steps.map(u64::from);
    u64::from(answer.number) + (u64::from(answer.rows) << 8) + (old << 16) + (new << 32)
}

fn plain_land(image: &mut [u8], plan: &[u8], row: u64) -> u64 {
    plain::land(image, plan, row).into()
}

fn plain_repair(image: &[u8], plan: &mut [u8], scratch: &mut [u8]) -> u64 {
    let answer = plain::repair(image, plan, scratch);
    u64::from(answer.number) + (u64::from(answer.rows) << 8)
}
