/* Damage drawn from bytes: images that are nearly consistent, journal records that nearly fit, and any bytes at all. */
#include "tree.h"

#include <string.h>

static void draw_edit(struct draws *draws, struct image *image)
{
    size_t place = draw_below(draws, image->len);
    uint8_t value = draw_byte(draws);
    switch (draw_below(draws, 4)) {
    case 0:
        image->bytes[place] = value;
        break;
    case 1:
        image->bytes[place] ^= (uint8_t)(1 << value % 8);
        break;
    case 2:
        image->bytes[place] = (uint8_t)(image->bytes[place] + (value % 2 == 0 ? 1 : -1));
        break;
    default:
        image->bytes[draw_below(draws, CONTENTS_BYTES)] = value;
    }
}

/* A number that a record of the journal may name: in range, mostly. */
static size_t draw_number(struct draws *draws, size_t count)
{
    return draw_one_in(draws, 16) ? draw_u16(draws) : draw_below(draws, count + 1);
}

/* Numbers that go together: a slot and what it says, so that such a record fits now and then. */
static void draw_journal(struct draws *draws, struct image *image)
{
    static const uint8_t kinds[] = {0, 0, 0, 7, 7, 7, 7, 1};
    const struct layout *layout = &image->layout;
    uint8_t *record = image->bytes + layout->journal_at;
    size_t old_slot = draw_number(draws, layout->entries), new_slot = draw_number(draws, layout->entries);
    bool follows = old_slot < layout->entries && new_slot < layout->entries && !draw_one_in(draws, 8);
    record[0] = 1;
    record[1] = kinds[draw_below(draws, 8)];
    put_u16(record + 2, old_slot);
    put_u16(record + 4, new_slot);
    put_u16(record + 6, follows ? get_u16(entry_of(image, old_slot) + 2) : draw_number(draws, layout->inodes));
    put_u16(record + 8, follows ? get_u16(entry_of(image, new_slot) + 2) : draw_number(draws, layout->inodes));
    put_u16(record + 10, follows ? get_u16(entry_of(image, old_slot)) : draw_number(draws, layout->inodes));
    put_u16(record + 12, draw_one_in(draws, 4) ? draw_number(draws, layout->texts) : 65535);
    if (draw_one_in(draws, 4))
        put_u16(record + 8, 65535);
    put_u64(record + 16, draw_u64(draws));
}

static void draw_length(struct draws *draws, struct image *image)
{
    size_t len = draw_one_in(draws, 4) ? draw_below(draws, LONGEST_IMAGE) : image->len + draw_below(draws, 80) - 40;
    if (len > image->len)
        memset(image->bytes + image->len, 0, len - image->len);
    image->len = len;
}

void draw_damage(struct draws *draws, struct image *image)
{
    size_t kind = draw_below(draws, 48), edits = 1 + draw_below(draws, 3);
    if (kind == 1)
        draw_length(draws, image);
    else if (kind < 6)
        draw_journal(draws, image);
    if (kind < 4 || kind == 6 || kind == 7)
        for (size_t i = 0; i < edits && image->len != 0; i++)
            draw_edit(draws, image);
}

void draw_raw_image(struct draws *draws, struct image *image)
{
    lay_out(image, 1 + draw_below(draws, 8), draw_below(draws, 8), draw_below(draws, 3), draw_below(draws, 3));
    size_t kept = draw_one_in(draws, 4) ? 0 : CONTENTS_BYTES;
    uint8_t mask = draw_one_in(draws, 2) ? 3 : 255;
    for (size_t i = kept; i < image->len; i++)
        image->bytes[i] = draw_byte(draws) & mask;
    if (draw_one_in(draws, 4))
        draw_length(draws, image);
}
