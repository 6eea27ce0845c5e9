/* An image as the driver holds it, and where its records are. */
#include "image.h"

#include <string.h>

uint16_t get_u16(const uint8_t *at)
{
    return (uint16_t)(at[0] | at[1] << 8);
}

void put_u16(uint8_t *at, size_t value)
{
    at[0] = (uint8_t)value;
    at[1] = (uint8_t)(value >> 8);
}

void put_u32(uint8_t *at, uint32_t value)
{
    put_u16(at, value & 0xffff);
    put_u16(at + 2, value >> 16);
}

void put_u64(uint8_t *at, uint64_t value)
{
    put_u32(at, (uint32_t)value);
    put_u32(at + 4, (uint32_t)(value >> 32));
}

static void put_row(uint8_t *row, const char *name, size_t offset, size_t count)
{
    memcpy(row, name, 4);
    put_u16(row + 4, offset);
    put_u16(row + 6, count);
}

static struct layout layout_of(size_t inodes, size_t entries, size_t texts, size_t handles)
{
    struct layout layout = {.inodes = inodes, .entries = entries, .texts = texts, .handles = handles};
    layout.entries_at = CONTENTS_BYTES + RECORD_BYTES * inodes;
    layout.texts_at = layout.entries_at + RECORD_BYTES * entries;
    layout.handles_at = layout.texts_at + TEXT_BYTES * texts;
    layout.journal_at = layout.handles_at + HANDLE_BYTES * handles;
    return layout;
}

static void put_contents(uint8_t contents[CONTENTS_BYTES], const struct layout *layout)
{
    put_row(contents, "NODE", CONTENTS_BYTES, layout->inodes);
    put_row(contents + 8, "LINK", layout->entries_at, layout->entries);
    put_row(contents + 16, "TEXT", layout->texts_at, layout->texts);
    put_row(contents + 24, "HAND", layout->handles_at, layout->handles);
    put_row(contents + 32, "NOTE", layout->journal_at, 1);
}

void lay_out(struct image *image, size_t inodes, size_t entries, size_t texts, size_t handles)
{
    image->layout = layout_of(inodes, entries, texts, handles);
    image->len = image->layout.journal_at + RECORD_BYTES;
    memset(image->bytes, 0, image->len);
    put_contents(image->bytes, &image->layout);
}

/* The counts are taken as they stand; what would be written for them has to be what is there. */
bool read_layout(const struct image *image, struct layout *layout)
{
    const uint8_t *contents = image->bytes;
    if (image->len < CONTENTS_BYTES)
        return false;
    size_t inodes = get_u16(contents + 6), entries = get_u16(contents + 14);
    size_t texts = get_u16(contents + 22), handles = get_u16(contents + 30);
    struct layout counted = layout_of(inodes, entries, texts, handles);
    bool in_range = inodes >= 1 && inodes <= MOST_INODES && entries <= MOST_ENTRIES && texts <= MOST_TEXTS
        && handles <= MOST_HANDLES;
    uint8_t right[CONTENTS_BYTES];
    put_contents(right, &counted);
    if (!in_range || image->len != counted.journal_at + RECORD_BYTES || memcmp(right, contents, sizeof right) != 0)
        return false;
    *layout = counted;
    return true;
}

bool journal_is_clear(const struct image *image, const struct layout *layout)
{
    static const uint8_t zeros[RECORD_BYTES];
    return memcmp(image->bytes + layout->journal_at, zeros, sizeof zeros) == 0;
}

void copy_image(struct image *to, const struct image *from)
{
    to->layout = from->layout;
    to->len = from->len;
    memcpy(to->bytes, from->bytes, from->len);
}

bool same_image(const struct image *one, const struct image *other)
{
    return one->len == other->len && memcmp(one->bytes, other->bytes, one->len) == 0;
}

uint8_t *inode_at(struct image *image, size_t number)
{
    return image->bytes + CONTENTS_BYTES + RECORD_BYTES * number;
}

uint8_t *entry_at(struct image *image, size_t slot)
{
    return image->bytes + image->layout.entries_at + RECORD_BYTES * slot;
}

uint8_t *text_at(struct image *image, size_t number)
{
    return image->bytes + image->layout.texts_at + TEXT_BYTES * number;
}

uint8_t *handle_at(struct image *image, size_t number)
{
    return image->bytes + image->layout.handles_at + HANDLE_BYTES * number;
}

const uint8_t *entry_of(const struct image *image, size_t slot)
{
    return image->bytes + image->layout.entries_at + RECORD_BYTES * slot;
}

const uint8_t *inode_of(const struct image *image, size_t number)
{
    return image->bytes + CONTENTS_BYTES + RECORD_BYTES * number;
}

static bool covers_one_of(size_t begin, size_t end, size_t record, size_t offset, size_t len)
{
    return offset >= begin && offset < end && (offset - begin) % record == 0 && len == record;
}

bool covers_one_record(const struct layout *layout, size_t offset, size_t len)
{
    size_t journal = layout->journal_at;
    return covers_one_of(CONTENTS_BYTES, layout->texts_at, RECORD_BYTES, offset, len)
        || covers_one_of(layout->texts_at, layout->handles_at, TEXT_BYTES, offset, len)
        || covers_one_of(journal, journal + RECORD_BYTES, RECORD_BYTES, offset, len);
}
