//! Every number that a job returns.

/// Done: consistent, planned, applied, recovered.
pub const DONE: u8 = 0;

// POSIX's errors by their names, with the numbers that Linux gives them.
pub const EPERM: u8 = 1;
pub const ENOENT: u8 = 2;
pub const EBADF: u8 = 9;
pub const EACCES: u8 = 13;
pub const EBUSY: u8 = 16;
pub const EEXIST: u8 = 17;
pub const EXDEV: u8 = 18;
pub const ENOTDIR: u8 = 20;
pub const EISDIR: u8 = 21;
pub const EINVAL: u8 = 22;
pub const ENOSPC: u8 = 28;
pub const EROFS: u8 = 30;
pub const EMLINK: u8 = 31;
pub const ENAMETOOLONG: u8 = 36;
pub const ENOTEMPTY: u8 = 39;
pub const ELOOP: u8 = 40;

/// The image is not consistent.
pub const INCONSISTENT: u8 = 201;
/// The request itself is wrong.
pub const BAD_REQUEST: u8 = 202;
/// The journal record is not all zero.
pub const JOURNAL_PENDING: u8 = 203;
pub const NOT_REPAIRABLE: u8 = 204;
/// A plan or a scratch buffer is too short.
pub const BUFFER_TOO_SHORT: u8 = 205;
/// A row of a plan cannot be applied.
pub const NOT_LANDABLE: u8 = 207;
