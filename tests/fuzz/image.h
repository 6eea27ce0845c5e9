/* An image as the driver holds it, and where its records are. */
#ifndef IMAGE_H
#define IMAGE_H

#include <stdbool.h>
#include <stddef.h>
#include <stdint.h>

/* An image may be longer than any good one, but not longer than the room that a call gets it in. */
enum { LONGEST_IMAGE = 66000, CONTENTS_BYTES = 40, RECORD_BYTES = 32, TEXT_BYTES = 64, HANDLE_BYTES = 8 };
enum { MOST_INODES = 512, MOST_ENTRIES = 1024, MOST_TEXTS = 64, MOST_HANDLES = 16, MOST_LINKS = 64, MOST_NAME = 24 };
enum { FREE = 0, PLAIN_FILE = 1, DIRECTORY = 2, SYMLINK = 3 };

/* What the table of contents says, and where each section begins by it. */
struct layout {
    size_t inodes, entries, texts, handles;
    size_t entries_at, texts_at, handles_at, journal_at;
};

/* The layout is the one that the image was built with, or that was read from it. */
struct image {
    struct layout layout;
    size_t len;
    uint8_t bytes[LONGEST_IMAGE];
};

/* An image of so many records, all of them zero, and its table of contents. */
void lay_out(struct image *image, size_t inodes, size_t entries, size_t texts, size_t handles);

/* Whether the table of contents is right; only then the layout becomes what that says. */
bool read_layout(const struct image *image, struct layout *layout);

void copy_image(struct image *to, const struct image *from);
bool same_image(const struct image *one, const struct image *other);

uint8_t *inode_at(struct image *image, size_t number);
uint8_t *entry_at(struct image *image, size_t slot);
uint8_t *text_at(struct image *image, size_t number);
uint8_t *handle_at(struct image *image, size_t number);
const uint8_t *entry_of(const struct image *image, size_t slot);
const uint8_t *inode_of(const struct image *image, size_t number);

bool journal_is_clear(const struct image *image, const struct layout *layout);

/* Numbers are little-endian. */
uint16_t get_u16(const uint8_t *at);
void put_u16(uint8_t *at, size_t value);
void put_u32(uint8_t *at, uint32_t value);
void put_u64(uint8_t *at, uint64_t value);

/* Whether a row of that offset and length covers one inode, entry, symlink text or journal record. */
bool covers_one_record(const struct layout *layout, size_t offset, size_t len);

#endif
