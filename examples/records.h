/*
 * What the examples share: files read whole, and the records of a plan written to an image file in its order.
 * Whoever includes it defines PROGRAM, the name that stands in front of what goes wrong.
 *
 * The groups are what makes a plan safe against a loss of power. The journal record (group 1) has to be on the
 * disk before the new entry (2), that before the old entry is cleared and counts and times are set (3), and all
 * of them before the journal record is cleared (4). So there is a sync behind each group; inside a group any
 * order will do. examples/rename.c tells what is lost without.
 */
#ifndef RECORDS_H
#define RECORDS_H

#define _POSIX_C_SOURCE 200809L

#include "mirepillar.h"

#include <errno.h>
#include <fcntl.h>
#include <stdint.h>
#include <stdio.h>
#include <stdlib.h>
#include <string.h>
#include <unistd.h>

/* No image is longer than LONGEST_IMAGE. */
enum { LONGEST_IMAGE = MP_LONGEST_IMAGE, PLAN_BYTES = MP_PLAN_BYTES, HEADER_BYTES = 8, GROUPS = 4 };
/* Exit statuses. After REFUSED and UNUSABLE the image file is as it was. */
enum { REFUSED = 1, UNUSABLE = 2, UNFINISHED = 3 };

/* A file's bytes, all of them. */
struct contents {
    uint8_t *bytes;
    size_t len;
};

static _Noreturn void fail(int status, const char *name, const char *sentence)
{
    fprintf(stderr, PROGRAM ": %s: %s\n", name, sentence);
    exit(status);
}

static int open_file(const char *name, int flags)
{
    int file = open(name, flags);
    if (file < 0)
        fail(UNUSABLE, name, strerror(errno));
    return file;
}

/* Reads a whole file. One byte more than the longest is asked for, so that a longer file is seen and not cut. */
static struct contents read_file(const char *name, int file, size_t longest, const char *too_long)
{
    struct contents contents = {malloc(longest + 1), 0};
    if (contents.bytes == NULL)
        fail(UNUSABLE, name, "there is no memory for it");
    while (contents.len <= longest) {
        ssize_t count = read(file, contents.bytes + contents.len, longest + 1 - contents.len);
        if (count < 0 && errno == EINTR)
            continue;
        if (count < 0)
            fail(UNUSABLE, name, strerror(errno));
        if (count == 0)
            return contents;
        contents.len += (size_t)count;
    }
    fail(UNUSABLE, name, too_long);
}

/* A copy to land rows on. Not every example makes one. */
static inline struct contents copy(struct contents image)
{
    struct contents other = {malloc(image.len + 1), image.len};
    if (other.bytes == NULL)
        fail(UNUSABLE, "memory", "there is none for a copy of the image");
    memcpy(other.bytes, image.bytes, image.len);
    return other;
}

static unsigned two_bytes(const uint8_t *bytes)
{
    return bytes[0] + 256u * bytes[1];
}

/* Writes the bytes at their place and nothing else of the file. */
static void write_at(const char *name, int file, const uint8_t *bytes, size_t len, off_t at)
{
    while (len > 0) {
        ssize_t count = pwrite(file, bytes, len, at);
        if (count < 0 && errno == EINTR)
            continue;
        if (count <= 0)
            fail(UNFINISHED, name, count < 0 ? strerror(errno) : "no byte could be written");
        bytes += count;
        len -= (size_t)count;
        at += count;
    }
}

/* Writes the record of a row, which is one that mp_land took. */
static void write_row(const char *name, int file, const uint8_t *plan, size_t row)
{
    const uint8_t *header = plan + HEADER_BYTES * row;
    const uint8_t *body = plan + two_bytes(header + 6);
    write_at(name, file, body, two_bytes(header + 2), (off_t)two_bytes(header + 4));
}

/* Comes back when the disk has all that was written. */
static void sync_file(const char *name, int file)
{
    if (fdatasync(file) != 0)
        fail(UNFINISHED, name, strerror(errno));
}

/* Writes the records of one group, and comes back when the disk has them. */
static void write_group(const char *name, int file, const uint8_t *plan, size_t rows, uint8_t group)
{
    int written = 0;
    for (size_t row = 0; row < rows; row++) {
        if (plan[HEADER_BYTES * row] != group)
            continue;
        write_row(name, file, plan, row);
        written = 1;
    }
    if (written)
        sync_file(name, file);
}

/* Writes the records of a plan to the image file, one group after the other, and closes it. Not every example does. */
static inline void write_plan(const char *name, int file, const uint8_t *plan, size_t rows)
{
    for (uint8_t group = 1; group <= GROUPS; group++)
        write_group(name, file, plan, rows, group);
    if (close(file) != 0)
        fail(UNFINISHED, name, strerror(errno));
}

#endif
