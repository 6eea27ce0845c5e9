//! The C interface as it is declared in include/mirepillar.h.

extern "C" {
    pub fn mp_check(image: *const u8, image_len: usize) -> u64;

    pub fn mp_rename(
        image: *const u8,
        image_len: usize,
        user: u32,
        group: u32,
        groups: *const u32,
        groups_len: usize,
        cwd: u16,
        old_start: u8,
        new_start: u8,
        now: u64,
        flags: u32,
        old_path: *const u8,
        old_len: usize,
        new_path: *const u8,
        new_len: usize,
        plan: *mut u8,
        plan_len: usize,
    ) -> u64;

    pub fn mp_land(image: *mut u8, image_len: usize, plan: *const u8, plan_len: usize, row: u64) -> u64;

    pub fn mp_repair(
        image: *const u8,
        image_len: usize,
        plan: *mut u8,
        plan_len: usize,
        scratch: *mut u8,
        scratch_len: usize,
    ) -> u64;
}
