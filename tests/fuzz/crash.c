/* A planned operation landed in several orders, and under losses of power; and a repair landed. */
#include "crash.h"

#include "mirepillar.h"
#include "tally.h"

#include <string.h>

enum { EXCHANGE_KIND = 7, NONE = 65535 };

/* The numbers that the journal record of an operation has, which is its first row. */
struct operation {
    const struct image *before;
    const struct plan *plan;
    size_t rows, old_slot, new_slot, moved, replaced;
    bool exchange;
};

static struct image finished, other, now;
static struct scratch scratch;

static bool has_name(const struct image *image, size_t inode)
{
    for (size_t slot = 0; slot < image->layout.entries; slot++)
        if (entry_of(image, slot)[4] != 0 && get_u16(entry_of(image, slot) + 2) == inode)
            return true;
    return false;
}

/* The slot has its parent and its name still, for one of the two inodes. */
static void must_keep_name(const struct operation *operation, const struct image *image, size_t slot)
{
    const uint8_t *entry = entry_of(image, slot), *was = entry_of(operation->before, slot);
    size_t target = get_u16(entry + 2);
    must(memcmp(entry, was, 2) == 0 && memcmp(entry + 4, was + 4, RECORD_BYTES - 4) == 0, LAND,
         "on the way of an operation a name that there was keeps its parent and its bytes");
    must(target == operation->moved || target == operation->replaced, LAND,
         "on the way of an operation a name that there was is for the moved or the replaced inode");
}

/* What holds of every image on the way, whatever has landed so far. */
static void must_be_on_the_way(const struct operation *operation, const struct image *image)
{
    uint8_t checked = try_check(image);
    must(checked == MP_DONE || checked == MP_PENDING, CHECK, "an image on the way is consistent or has a journal record");
    if (operation->replaced != NONE)
        must_keep_name(operation, image, operation->new_slot);
    if (operation->exchange)
        must_keep_name(operation, image, operation->old_slot);
    else
        must(has_name(image, operation->moved), LAND, "on the way of a rename the moved inode has a name");
}

/* One of the rows that wait with none of a lower group; the drawn one, or without draws the first. */
static size_t next_row(struct draws *draws, const struct plan *plan, size_t rows, const bool landed[MP_PLAN_ROWS])
{
    size_t permitted[MP_PLAN_ROWS] = {0}, len = 0;
    for (size_t row = 0; row < rows; row++) {
        if (landed[row] || (len != 0 && group_of(plan, row) > group_of(plan, permitted[0])))
            continue;
        if (len != 0 && group_of(plan, row) < group_of(plan, permitted[0]))
            len = 0;
        permitted[len++] = row;
    }
    return permitted[draws == NULL ? 0 : draw_below(draws, len)];
}

/* Lands so many of the rows, in an order that is permitted; whether one of that group was among them. */
static bool land_rows(struct draws *draws, struct image *image, const struct plan *plan, size_t rows, size_t count,
                      unsigned group, const struct operation *operation)
{
    bool landed[MP_PLAN_ROWS] = {false}, had_group = false;
    for (size_t i = 0; i < count; i++) {
        size_t row = next_row(draws, plan, rows, landed);
        must(try_land(image, plan, row) == MP_DONE, LAND, "a row that waits lands");
        landed[row] = true;
        had_group = had_group || group_of(plan, row) == group;
        if (operation != NULL)
            must_be_on_the_way(operation, image);
    }
    return had_group;
}

static void count_repair(const struct image *image, size_t rows)
{
    if (rows == 0)
        count_deed(NOTHING_TO_REPAIR);
    else if (image->bytes[image->layout.journal_at + 1] == EXCHANGE_KIND)
        count_deed(EXCHANGE_FINISHED);
    else
        count_deed(rows == 1 ? TAKEN_BACK : FINISHED);
}

/* The outcome in the scratch is consistent, and it is what the rows leave. */
static void must_lead_to_scratch(struct draws *draws, const struct image *image, const struct plan *plan, size_t rows)
{
    copy_image(&other, image);
    memcpy(other.bytes, scratch.bytes, image->len);
    must(try_check(&other) == MP_DONE, REPAIR, "the outcome in the scratch is consistent");
    copy_image(&other, image);
    land_rows(draws, &other, plan, rows, rows, 0, NULL);
    must(memcmp(other.bytes, scratch.bytes, image->len) == 0, REPAIR, "the rows leave what the scratch shows");
}

/* A repair after a loss of power; a refused one with short buffers may come ahead, and changes nothing. */
static size_t repair_after_crash(struct draws *draws, const struct image *image, struct plan *plan)
{
    if (draw_one_in(draws, 8)) {
        draw_plan(draws, plan, 2);
        draw_scratch(draws, &scratch, image->len, 2);
        try_repair(image, plan, &scratch);
    }
    draw_plan(draws, plan, 0);
    draw_scratch(draws, &scratch, image->len, 0);
    uint64_t result = try_repair(image, plan, &scratch);
    must(mp_number(result) == MP_DONE, REPAIR, "an image that a crash left of an operation is repaired");
    count_repair(image, mp_rows(result));
    must_lead_to_scratch(draws, image, plan, mp_rows(result));
    return mp_rows(result);
}

/* Rows land, power is lost, a repair's rows land, power is lost again, and so on; the last repair's rows all land. */
static void crash(struct draws *draws, const struct operation *operation)
{
    static struct plan repair;
    unsigned decisive = operation->exchange ? 1 : 2;
    size_t count = draw_below(draws, operation->rows + 1), crashes = 1 + draw_below(draws, 4);
    copy_image(&now, operation->before);
    bool decided = land_rows(draws, &now, operation->plan, operation->rows, count, decisive, operation);
    for (size_t i = 1; i <= crashes; i++) {
        size_t rows = repair_after_crash(draws, &now, &repair);
        land_rows(draws, &now, &repair, rows, i == crashes ? rows : draw_below(draws, rows + 1), 0, operation);
    }
    must(!decided || same_image(&now, &finished), REPAIR,
         "once what decides has landed (a rename's new entry, an exchange's journal record), repair leaves the finished image");
    must(decided || same_image(&now, operation->before), REPAIR,
         "until what decides has landed (a rename's new entry, an exchange's journal record), repair leaves the image before");
}

static struct operation operation_of(const struct image *before, const struct plan *plan, size_t rows, bool exchange)
{
    const uint8_t *record = body_of(plan, 0);
    struct operation operation = {.before = before, .plan = plan, .rows = rows, .exchange = exchange};
    operation.old_slot = get_u16(record + 2);
    operation.new_slot = get_u16(record + 4);
    operation.moved = get_u16(record + 6);
    operation.replaced = get_u16(record + 8);
    bool in_range = operation.old_slot < before->layout.entries && operation.new_slot < before->layout.entries;
    must(group_of(plan, 0) == 1 && offset_of(plan, 0) == before->layout.journal_at, RENAME,
         "the first row is the journal record");
    must(in_range && record[1] == (exchange ? EXCHANGE_KIND : 0), RENAME, "the journal record is of its kind");
    return operation;
}

void try_operation(struct draws *draws, const struct image *before, const struct plan *plan, size_t rows, bool exchange)
{
    size_t fewest = exchange ? 7 : 6, most = exchange ? 8 : 9;
    must(rows >= fewest && rows <= most, RENAME, "a rename has 6 to 9 rows, an exchange 7 or 8");
    struct operation operation = operation_of(before, plan, rows, exchange);
    copy_image(&finished, before);
    land_rows(NULL, &finished, plan, rows, rows, 0, &operation);
    must(try_check(&finished) == MP_DONE, RENAME, "the finished image is consistent");
    copy_image(&now, before);
    land_rows(draws, &now, plan, rows, rows, 0, NULL);
    must(same_image(&now, &finished), RENAME, "every permitted order of landing leaves the same image");
    crash(draws, &operation);
    crash(draws, &operation);
}

void try_any_repair(struct draws *draws, const struct image *image, uint8_t checked)
{
    static struct plan plan;
    draw_plan(draws, &plan, 16);
    draw_scratch(draws, &scratch, image->len, 16);
    uint64_t result = try_repair(image, &plan, &scratch);
    uint8_t number = mp_number(result);
    if (number == MP_SHORT_BUFFER)
        return;
    must((number == MP_UNSOUND) == (checked == MP_UNSOUND), REPAIR, "201 is for what check answers with 201");
    must(checked != MP_DONE || (number == MP_DONE && mp_rows(result) == 0), REPAIR, "a consistent image needs no rows");
    if (number != MP_DONE)
        return;
    must(checked == MP_DONE || mp_rows(result) != 0, REPAIR, "a journal record is cleared by some row");
    count_repair(image, mp_rows(result));
    must_lead_to_scratch(draws, image, &plan, mp_rows(result));
}
