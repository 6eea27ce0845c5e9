/* The four jobs, each called with guarded buffers, and what has to hold of every single call. */
#include "jobs.h"

#include "mirepillar.h"
#include "rooms.h"
#include "tally.h"

#include <string.h>

static void fill(struct draws *draws, uint8_t *bytes, size_t len)
{
    memset(bytes, draw_byte(draws), len);
}

void draw_plan(struct draws *draws, struct plan *plan, unsigned short_in)
{
    bool is_short = short_in != 0 && draw_one_in(draws, short_in);
    plan->len = is_short ? draw_below(draws, MP_PLAN_BYTES) : MP_PLAN_BYTES + draw_below(draws, 41);
    fill(draws, plan->bytes, plan->len);
}

void draw_scratch(struct draws *draws, struct scratch *scratch, size_t image_len, unsigned short_in)
{
    bool is_short = short_in != 0 && image_len != 0 && draw_one_in(draws, short_in);
    scratch->len = is_short ? draw_below(draws, image_len) : image_len + draw_below(draws, 41);
    fill(draws, scratch->bytes, scratch->len);
}

static const uint8_t *header_of(const struct plan *plan, size_t row)
{
    return plan->bytes + 8 * row;
}

unsigned group_of(const struct plan *plan, size_t row)
{
    return header_of(plan, row)[0];
}

size_t offset_of(const struct plan *plan, size_t row)
{
    return get_u16(header_of(plan, row) + 4);
}

static size_t length_of(const struct plan *plan, size_t row)
{
    return get_u16(header_of(plan, row) + 2);
}

const uint8_t *body_of(const struct plan *plan, size_t row)
{
    return plan->bytes + 72 + 64 * row;
}

static bool all_zero(const uint8_t *bytes, size_t len)
{
    for (size_t i = 0; i < len; i++)
        if (bytes[i] != 0)
            return false;
    return true;
}

/* The same bytes; where there are none, neither place is looked at. */
static bool same(const uint8_t *one, const uint8_t *other, size_t len)
{
    return len == 0 || memcmp(one, other, len) == 0;
}

uint8_t try_check(const struct image *image)
{
    struct layout layout;
    uint8_t *given = put_in(IMAGE_ROOM, image->bytes, image->len);
    uint64_t result = mp_check(given, image->len);
    count_answer(CHECK, result);
    must(same(given, image->bytes, image->len), CHECK, "the image is as it was");
    must(rooms_are_whole(), CHECK, "nothing beside the image is written");
    bool readable = read_layout(image, &layout);
    must(readable || mp_number(result) == MP_UNSOUND, CHECK, "a bad layout is 201");
    bool pending = readable && !journal_is_clear(image, &layout);
    must(pending == (mp_number(result) == MP_PENDING), CHECK, "203 is for a journal record that is not clear");
    return mp_number(result);
}

/* A row covers one record; its body, as far as it is used, is all that its part of the plan has. */
static void must_be_row(enum job job, const struct image *image, const struct plan *plan, size_t row)
{
    size_t len = length_of(plan, row);
    bool in_order = row == 0 || group_of(plan, row - 1) <= group_of(plan, row);
    must(group_of(plan, row) >= 1 && group_of(plan, row) <= 4, job, "a row has a group from 1 to 4");
    must(in_order, job, "the rows stand in the order of their groups");
    must(header_of(plan, row)[1] == 0, job, "the second byte of a row is zero");
    must(get_u16(header_of(plan, row) + 6) == 72 + 64 * row, job, "the body of a row stands in its place");
    must(covers_one_record(&image->layout, offset_of(plan, row), len), job, "a row covers one record");
    must(all_zero(body_of(plan, row) + len, 64 - len), job, "a body is zero behind its record");
}

static void must_be_plan(enum job job, const struct image *image, const struct plan *plan, size_t rows)
{
    for (size_t row = 0; row < rows; row++)
        must_be_row(job, image, plan, row);
    must(all_zero(header_of(plan, rows), 8 * (MP_PLAN_ROWS - rows)), job, "the headers behind the last row are zero");
    must(all_zero(body_of(plan, rows), 64 * (MP_PLAN_ROWS - rows)), job, "the bodies behind the last row are zero");
    must(rows == 0 || group_of(plan, rows - 1) == 4, job, "the last row clears the journal record");
}

/* What the call has left in the plan's buffer becomes the plan. */
static void take_plan(enum job job, const uint8_t *buffer, struct plan *plan, uint64_t result)
{
    bool kept = same(buffer, plan->bytes, plan->len);
    must(mp_number(result) == MP_DONE || kept, job, "a refusal leaves the plan as it was");
    if (mp_number(result) != MP_DONE)
        return;
    must(plan->len >= MP_PLAN_BYTES, job, "a short plan is refused");
    size_t behind = plan->len - MP_PLAN_BYTES;
    must(same(buffer + MP_PLAN_BYTES, plan->bytes + MP_PLAN_BYTES, behind), job, "the plan past 648 bytes is as it was");
    memcpy(plan->bytes, buffer, MP_PLAN_BYTES);
}

static uint64_t call_rename(const struct image *image, const struct request *request, struct plan *plan)
{
    const struct path *old_path = &request->old_path, *new_path = &request->new_path;
    uint8_t *given = put_in(IMAGE_ROOM, image->bytes, image->len);
    uint8_t *buffer = put_in(PLAN_ROOM, plan->bytes, plan->len);
    void *groups = put_in(GROUPS_ROOM, request->groups, request->groups_len * sizeof *request->groups);
    uint8_t *old_given = put_in(OLD_ROOM, old_path->bytes, old_path->len);
    uint8_t *new_given = put_in(NEW_ROOM, new_path->bytes, new_path->len);
    uint64_t result = mp_rename(given, image->len, request->user, request->group, groups, request->groups_len,
                                request->cwd, request->old_start, request->new_start, request->now, request->flags,
                                old_given, old_path->len, new_given, new_path->len, buffer, plan->len);
    bool same_request = same(groups, (const uint8_t *)request->groups, request->groups_len * sizeof *request->groups)
        && same(old_given, old_path->bytes, old_path->len) && same(new_given, new_path->bytes, new_path->len);
    must(same(given, image->bytes, image->len), RENAME, "the image is as it was");
    must(same_request, RENAME, "the request is as it was");
    must(rooms_are_whole(), RENAME, "nothing beside the plan is written");
    take_plan(RENAME, buffer, plan, result);
    return result;
}

/* Twice, with other bytes in the plan's buffer the second time: nothing of them may count. */
uint64_t try_rename(const struct image *image, const struct request *request, struct plan *plan)
{
    struct plan again = {.len = plan->len};
    memset(again.bytes, 0xd2, again.len);
    uint64_t result = call_rename(image, request, plan);
    bool is_short = plan->len < MP_PLAN_BYTES;
    count_answer(RENAME, result);
    must(call_rename(image, request, &again) == result, RENAME, "the same call has the same answer");
    must(is_short == (mp_number(result) == MP_SHORT_BUFFER), RENAME, "205 is for a plan under 648 bytes");
    if (mp_number(result) != MP_DONE)
        return result;
    must(same(again.bytes, plan->bytes, MP_PLAN_BYTES), RENAME, "the same call has the same plan");
    must_be_plan(RENAME, image, plan, mp_rows(result));
    return result;
}

/* What landing has to answer, by the rules alone. */
static uint8_t number_of_landing(const struct image *image, const struct plan *plan, uint64_t row)
{
    struct layout layout;
    if (plan->len < MP_PLAN_BYTES)
        return MP_SHORT_BUFFER;
    if (!read_layout(image, &layout))
        return MP_UNSOUND;
    if (row >= MP_PLAN_ROWS)
        return MP_BAD_ROW;
    const uint8_t *header = header_of(plan, row);
    bool formed = header[0] >= 1 && header[0] <= 4 && header[1] == 0 && get_u16(header + 6) == 72 + 64 * row;
    bool fits = covers_one_record(&layout, offset_of(plan, row), length_of(plan, row));
    return formed && fits ? MP_DONE : MP_BAD_ROW;
}

uint8_t try_land(struct image *image, const struct plan *plan, uint64_t row)
{
    uint8_t *given = put_in(IMAGE_ROOM, image->bytes, image->len);
    uint8_t *buffer = put_in(PLAN_ROOM, plan->bytes, plan->len);
    uint64_t result = mp_land(given, image->len, buffer, plan->len, row);
    count_answer(LAND, result);
    must(same(buffer, plan->bytes, plan->len), LAND, "the plan is as it was");
    must(rooms_are_whole(), LAND, "nothing beside the image is written");
    must(mp_number(result) == number_of_landing(image, plan, row), LAND, "the number is the one that the rules give");
    if (mp_number(result) == MP_DONE)
        memcpy(image->bytes + offset_of(plan, row), body_of(plan, row), length_of(plan, row));
    must(same(given, image->bytes, image->len), LAND, "the row's record alone changes, and nothing where it is refused");
    return mp_number(result);
}

static void must_leave_scratch(const uint8_t *buffer, const struct scratch *scratch, size_t used, uint8_t number)
{
    bool kept = same(buffer, scratch->bytes, scratch->len);
    if (number == MP_SHORT_BUFFER || number == MP_UNSOUND) {
        must(kept, REPAIR, "205 and 201 leave the scratch as it was");
        return;
    }
    must(scratch->len >= used, REPAIR, "a short scratch is refused");
    must(same(buffer + used, scratch->bytes + used, scratch->len - used), REPAIR, "the scratch past the image is as it was");
    must(number == MP_DONE || all_zero(buffer, used), REPAIR, "204 leaves a scratch of zeros");
}

uint64_t try_repair(const struct image *image, struct plan *plan, struct scratch *scratch)
{
    uint8_t *given = put_in(IMAGE_ROOM, image->bytes, image->len);
    uint8_t *buffer = put_in(PLAN_ROOM, plan->bytes, plan->len);
    uint8_t *outcome = put_in(SCRATCH_ROOM, scratch->bytes, scratch->len);
    uint64_t result = mp_repair(given, image->len, buffer, plan->len, outcome, scratch->len);
    bool is_short = plan->len < MP_PLAN_BYTES || scratch->len < image->len;
    count_answer(REPAIR, result);
    must(same(given, image->bytes, image->len), REPAIR, "the image is as it was");
    must(rooms_are_whole(), REPAIR, "nothing beside the plan and the scratch is written");
    must(is_short == (mp_number(result) == MP_SHORT_BUFFER), REPAIR, "205 is for short buffers");
    take_plan(REPAIR, buffer, plan, result);
    must_leave_scratch(outcome, scratch, image->len, mp_number(result));
    memcpy(scratch->bytes, outcome, scratch->len);
    if (mp_number(result) == MP_DONE)
        must_be_plan(REPAIR, image, plan, mp_rows(result));
    return result;
}
