/*
 * Fuzzes the library through its C interface. From the fuzzer's bytes come an image, mostly consistent or nearly, and a
 * request, mostly for names of the tree; every job is called, and whatever answers 0 is landed, crashed and repaired.
 */
#include "crash.h"
#include "jobs.h"
#include "mirepillar.h"
#include "request.h"
#include "rooms.h"
#include "tally.h"
#include "tree.h"

#include <stdlib.h>

int LLVMFuzzerInitialize(int *argc, char ***argv);
int LLVMFuzzerTestOneInput(const uint8_t *data, size_t size);

/* The parts of an input. Each has its own bytes, so that one that grows does not move the others. */
enum { SEED_BYTES = 8, REQUEST_BYTES = 96, ORDER_BYTES = 64 };

static struct draws part(const uint8_t **data, size_t *size, size_t most, uint64_t seed)
{
    size_t len = *size < most ? *size : most;
    struct draws draws = {.bytes = *data, .left = len, .state = seed};
    *data += len;
    *size -= len;
    return draws;
}

/* Rename's answer goes with check's. */
static void must_agree(uint8_t checked, uint8_t renamed)
{
    if (renamed == MP_SHORT_BUFFER)
        return;
    must((checked == MP_UNSOUND) == (renamed == MP_UNSOUND), RENAME, "201 is for what check answers with 201");
    must((checked == MP_PENDING) == (renamed == MP_PENDING), RENAME, "203 is for what check answers with 203");
    must(renamed != MP_DONE || checked == MP_DONE, RENAME, "0 is for what check answers with 0");
}

/* Lands a row of a plan in which some bytes have been changed, or of any plan at all. */
static void try_any_landing(struct draws *draws, struct image *image, struct plan *plan)
{
    size_t edits = draw_below(draws, 4);
    if (draw_one_in(draws, 16))
        draw_plan(draws, plan, 4);
    for (size_t i = 0; i < edits && plan->len != 0; i++) {
        size_t place = draw_one_in(draws, 4) ? draw_below(draws, plan->len) : draw_below(draws, 72) % plan->len;
        plan->bytes[place] = draw_byte(draws);
    }
    try_land(image, plan, draw_one_in(draws, 16) ? draw_u64(draws) : draw_below(draws, MP_PLAN_ROWS + 1));
}

static void try_jobs(struct draws *order, struct image *image, const struct request *request)
{
    static struct plan plan;
    draw_plan(order, &plan, 64);
    uint8_t checked = try_check(image);
    uint64_t result = try_rename(image, request, &plan);
    must_agree(checked, mp_number(result));
    bool exchange = request->flags == MP_EXCHANGE;
    if (mp_number(result) == MP_DONE)
        count_deed(mp_rows(result) == 0 ? ONE_FILE : exchange ? EXCHANGED : RENAMED);
    if (mp_rows(result) != 0)
        try_operation(order, image, &plan, mp_rows(result), exchange);
    try_any_repair(order, image, checked);
    try_any_landing(order, image, &plan);
}

int LLVMFuzzerInitialize(int *argc, char ***argv)
{
    (void)argc;
    (void)argv;
    make_rooms();
    atexit(print_tally);
    return 0;
}

int LLVMFuzzerTestOneInput(const uint8_t *data, size_t size)
{
    static struct image image;
    static struct request request;
    struct draws seeds = part(&data, &size, SEED_BYTES, 0);
    uint64_t seed = draw_u64(&seeds);
    struct draws asked = part(&data, &size, REQUEST_BYTES, seed + 1);
    struct draws order = part(&data, &size, ORDER_BYTES, seed + 2);
    struct draws tree = part(&data, &size, size, seed + 3);
    place_buffers(draw_one_in(&order, 2));
    draw_tree(&tree, &image);
    must(try_check(&image) == MP_DONE, CHECK, "a tree that keeps every rule is consistent");
    draw_request(&asked, &image, &request);
    if (draw_one_in(&order, 32))
        draw_raw_image(&tree, &image);
    else
        draw_damage(&order, &image);
    read_layout(&image, &image.layout);
    try_jobs(&order, &image, &request);
    return 0;
}
