/*
 * Mirepillar's C interface: link with libmirepillar.a, which tools/archive makes.
 *
 * A buffer is a pointer and its length in bytes, a list of groups a pointer and their number. Where
 * the length is 0 the pointer is not used and may be NULL. Any bytes may be given: no function asks for more than buffers that do not overlap.
 *
 * Every function gives one 64-bit result; an accessor below takes out each part of it.
 *
 * The functions keep nothing between calls: any threads may call them at once, as long as no buffer
 * that one call writes is given to another. They take no memory from the heap, open no file and do
 * not sleep. The stack that they need beside their buffers, on x86-64 and at most: mp_check 8,808 bytes,
 * mp_rename 11,384, mp_repair 10,936, mp_land 176 (tests/stack/run reads it from the compiled code).
 */
#ifndef MIREPILLAR_H
#define MIREPILLAR_H

#include <stddef.h>
#include <stdint.h>

#ifdef __cplusplus
extern "C" {
#endif

/* Bytes and rows of a plan, and the bytes of the longest image. */
enum { MP_PLAN_BYTES = 648, MP_PLAN_ROWS = 9, MP_LONGEST_IMAGE = 53448 };

/*
 * The numbers that tell how a job went; which of them a job answers is told with it. The errors of
 * POSIX are numbered as on Linux, whatever <errno.h> says on the host; only mp_rename answers them.
 */
enum {
    MP_DONE = 0,             /* done, as the job says */
    MP_EPERM = 1,            /* EPERM: a sticky directory protects the old or the new name from this caller, or the
                                new path's last name has a byte that is not portable */
    MP_ENOENT = 2,           /* ENOENT: a path is empty, or a name does not exist */
    MP_EBADF = 9,            /* EBADF: the handle that a relative path begins at is closed or does not exist */
    MP_EACCES = 13,          /* EACCES: search denied on the way, or write denied on a parent or on a directory that
                                would get another parent */
    MP_EBUSY = 16,           /* EBUSY: a path has only slashes; a directory is on another file system than its parent;
                                or what would be removed is the current directory or under an open handle */
    MP_EEXIST = 17,          /* EEXIST: the new name exists, and MP_NOREPLACE was asked for */
    MP_EXDEV = 18,           /* EXDEV: the two parents are on different file systems */
    MP_ENOTDIR = 20,         /* ENOTDIR: a name on the way is no directory; a slash stands behind what is none; or a
                                directory would replace what is none */
    MP_EISDIR = 21,          /* EISDIR: what is no directory would replace a directory */
    MP_EINVAL = 22,          /* EINVAL: a path ends in . or ..; a directory would come to lie inside itself; or the
                                flags are both, or have an unknown bit */
    MP_ENOSPC = 28,          /* ENOSPC: no directory entry is free */
    MP_EROFS = 30,           /* EROFS: a parent is on a read-only file system */
    MP_EMLINK = 31,          /* EMLINK: a directory would have more than 64 links */
    MP_ENAMETOOLONG = 36,    /* ENAMETOOLONG: a path has over 255 bytes, or a component over 24 */
    MP_ENOTEMPTY = 39,       /* ENOTEMPTY: the directory that would be replaced has entries */
    MP_ELOOP = 40,           /* ELOOP: a path leads through more than 40 symlinks */
    MP_UNSOUND = 201,        /* the image is not consistent */
    MP_WRONG_REQUEST = 202,  /* the current directory is none, a path has a byte 0, or too many groups */
    MP_PENDING = 203,        /* the journal record is not zero: repair first */
    MP_NOT_REPAIRABLE = 204, /* the journal record does not fit, or its outcome is not consistent */
    MP_SHORT_BUFFER = 205,   /* a plan buffer under 648 bytes, or a scratch shorter than the image */
    MP_BAD_ROW = 207         /* no plan has such a row, or it covers no record */
};

/* The number that tells how the job went: bits 0 to 7 of a result. */
static inline uint8_t mp_number(uint64_t result)
{
    return (uint8_t)(result & 0xff);
}

/* How many rows the plan has: bits 8 to 15. */
static inline uint8_t mp_rows(uint64_t result)
{
    return (uint8_t)(result >> 8 & 0xff);
}

/* How many components of the old path, its symlinks' texts included, were looked at: bits 16 to 31. */
static inline uint16_t mp_old_steps(uint64_t result)
{
    return (uint16_t)(result >> 16 & 0xffff);
}

/* The same of the new path: bits 32 to 47. The bits above are 0. */
static inline uint16_t mp_new_steps(uint64_t result)
{
    return (uint16_t)(result >> 32 & 0xffff);
}

/*
 * Checks an image, and changes nothing. The result has a number alone:
 *
 *     0  the image is consistent;
 *   201  it is not: its layout is bad, or its journal record is clear and another record is at fault;
 *   203  its layout is right and its journal record is not all zero; no other record was looked at.
 */
uint64_t mp_check(const uint8_t *image, size_t image_len);

/* What a start is where a relative path begins in the current directory and at no handle. */
enum { MP_CURRENT_DIRECTORY = 255 };

/* The most groups of a caller beside the effective one. */
enum { MP_MOST_GROUPS = 16 };

/*
 * The flags of a rename, as renameat2 of Linux has them. 0 is a plain rename; both, or any other bit,
 * are refused.
 *
 * MP_NOREPLACE: a new name that exists is refused (17, EEXIST), also where it is another name of the
 * same file. Otherwise it is a plain rename.
 *
 * MP_EXCHANGE: what the two paths name change places, and nothing is freed. Both have to exist: a
 * missing new name is refused (2, ENOENT). They may be of any two types, and directories may have
 * entries, be open or be the current directory; but neither may be the directory of the other or above
 * it (22, EINVAL). A directory that gets another parent has to be writable (13, EACCES), and its new
 * parent, where it comes for something else than a directory, must have fewer than 64 links (31,
 * EMLINK).
 */
enum { MP_NOREPLACE = 1, MP_EXCHANGE = 2 };

/*
 * Plans a rename, or an exchange. The image is only read: landing the plan's rows is what renames.
 *
 * The request is the caller's effective user and group, the groups that the caller is in beside
 * these (at most MP_MOST_GROUPS; of more none is read), the current directory (an inode), where each
 * path begins if it is relative (a handle, or MP_CURRENT_DIRECTORY), the time to be set, the flags
 * (0, MP_NOREPLACE or MP_EXCHANGE), and two paths, which need no byte 0 behind them. The result has a
 * number, the rows, and both counts of steps:
 *
 *     0  the first 648 bytes of the plan's buffer are the plan, and what is behind them is as it
 *        was; two names of one file give a plan of no rows, since there is nothing to do. Otherwise a
 *        rename has 6 to 9 rows. An exchange has 7, or 8 between two directories: the journal record
 *        (group 1), both entries (2), the inodes (3), the journal record cleared (4);
 *   205  the buffer has fewer than 648 bytes;
 *   201  the layout of the image is bad, or its journal record is clear and another record is at fault;
 *   203  its layout is right and its journal record is not all zero: recovery has to come first;
 *   202  the current directory is none, a path has a byte 0 in it, or there are more than 16 groups
 *        beside the effective one;
 *    22  (EINVAL, with both counts 0) the flags are both of them, or have another bit;
 *  else  an errno of Linux, by which a walk or the rename itself is refused, such as 2 (ENOENT), or
 *        1 (EPERM) for a last name of the new path that has a byte other than A to Z, a to z, 0 to 9,
 *        dot, underscore and hyphen. Any other name may have any byte but 0 and the slash.
 *
 * The first of these that applies is given, the walk of the old path coming before that of the new
 * one, then what the flags ask of the new name, and then the rename itself. After any but 0 the buffer is as it was, and there are no
 * rows. The counts are 0 where no walk has begun.
 */
uint64_t mp_rename(const uint8_t *image, size_t image_len,
                   uint32_t user, uint32_t group, const uint32_t *groups, size_t groups_len,
                   uint16_t cwd, uint8_t old_start, uint8_t new_start, uint64_t now, uint32_t flags,
                   const uint8_t *old_path, size_t old_len, const uint8_t *new_path, size_t new_len,
                   uint8_t *plan, size_t plan_len);

/*
 * Lands one row of a plan: copies its body onto the image. The rows are numbered from 0, and any
 * number may be asked for. The plan is only read. The result has a number alone:
 *
 *     0  the row has landed, and no other byte of the image has changed;
 *   205  the plan has fewer than 648 bytes;
 *   201  the layout of the image is bad; its records are not looked at in any case;
 *   207  the row is not landable: no plan has a row of that number, a part of it is out of its form,
 *        or it does not cover exactly one inode, entry, symlink text or journal record.
 *
 * The first of these that applies is given. After any but 0 the image is as it was.
 */
uint64_t mp_land(uint8_t *image, size_t image_len, const uint8_t *plan, size_t plan_len, uint64_t row);

/*
 * Plans a repair after a crash. The image is only read: landing the plan's rows is what repairs. A
 * rename whose new entry has landed is carried to its end, and any other is taken back. An exchange
 * whose journal record has landed is carried to its end, by 6 or 7 rows; without it nothing of the
 * exchange is there. Until then one of its two files may be without a name. The scratch is for the
 * outcome, the image as it will be once every row has landed. The result has a number and the rows:
 *
 *     0  the first 648 bytes of the plan's buffer are the plan, and as many bytes of the scratch as
 *        the image has are the outcome, which is consistent; what is behind them is as it was. A
 *        consistent image gives a plan of no rows, since there is nothing to do;
 *   205  the plan's buffer has fewer than 648 bytes, or the scratch fewer than the image;
 *   201  the layout of the image is bad, or its journal record is clear and another record is at fault;
 *   204  the journal record does not fit the image (its mark, its zeros, its kind or its numbers), or
 *        the outcome would not be consistent: as many bytes of the scratch as the image has are zero.
 *
 * The first of these that applies is given. After any but 0 the plan's buffer is as it was, and there
 * are no rows; after 205 and 201 so is the scratch.
 */
uint64_t mp_repair(const uint8_t *image, size_t image_len, uint8_t *plan, size_t plan_len,
                   uint8_t *scratch, size_t scratch_len);

#ifdef __cplusplus
}
#endif

#endif
