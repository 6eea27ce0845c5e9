/* What the jobs answered: told to the fuzzer as it goes, and in one line at the end. */
#include "tally.h"

#include "mirepillar.h"

#include <inttypes.h>
#include <stddef.h>
#include <stdio.h>
#include <stdlib.h>

enum { MOST_NUMBERS = 21, ROW_COUNTS = 10, BUCKETS = 6, MOST_STEPS = 5248 };

/* The numbers that each job may answer. */
static const struct {
    const char *name;
    size_t len;
    uint8_t numbers[MOST_NUMBERS];
} tables[JOBS] = {
    [CHECK] = {"check", 3, {0, 201, 203}},
    [RENAME] = {"rename", 21, {0, 1, 2, 9, 13, 16, 17, 18, 20, 21, 22, 28, 30, 31, 36, 39, 40, 201, 202, 203, 205}},
    [LAND] = {"land", 4, {0, 201, 205, 207}},
    [REPAIR] = {"repair", 4, {0, 201, 204, 205}},
};

static const char *const deeds[DEEDS] = {
    [RENAMED] = "rename with rows",
    [EXCHANGED] = "exchange with rows",
    [ONE_FILE] = "two names of one file",
    [NOTHING_TO_REPAIR] = "nothing to repair",
    [TAKEN_BACK] = "rename taken back",
    [FINISHED] = "rename finished",
    [EXCHANGE_FINISHED] = "exchange finished",
};

static uint64_t answers[JOBS][MOST_NUMBERS];
static uint64_t done[DEEDS];

/* The archive has no instrumentation: by these the fuzzer sees that an input led to an answer that is new. */
__attribute__((section("__libfuzzer_extra_counters"), used)) static uint8_t
    reached[JOBS][MOST_NUMBERS][ROW_COUNTS][BUCKETS][BUCKETS];

/* Counts of steps that are told apart: 0, 1, 2, 3 to 8, 9 to 64, more. */
static size_t bucket(unsigned steps)
{
    static const unsigned limits[BUCKETS - 1] = {0, 1, 2, 8, 64};
    size_t at = 0;
    while (at < BUCKETS - 1 && steps > limits[at])
        at++;
    return at;
}

static size_t place_of(enum job job, uint8_t number)
{
    size_t place = 0;
    while (place < tables[job].len && tables[job].numbers[place] != number)
        place++;
    return place;
}

void count_answer(enum job job, uint64_t result)
{
    unsigned rows = mp_rows(result), old_steps = mp_old_steps(result), new_steps = mp_new_steps(result);
    size_t place = place_of(job, mp_number(result));
    must(place < tables[job].len, job, "the number is one of its table");
    must(result >> 48 == 0, job, "the bits above the counts are 0");
    must(rows <= MP_PLAN_ROWS, job, "there are at most nine rows");
    must(mp_number(result) == MP_DONE || rows == 0, job, "a refusal has no rows");
    must(job == RENAME || job == REPAIR || rows == 0, job, "only a rename and a repair have rows");
    must(job == RENAME || (old_steps == 0 && new_steps == 0), job, "only a rename counts steps");
    must(old_steps <= MOST_STEPS && new_steps <= MOST_STEPS, job, "a walk begins at most 5,248 component checks");
    answers[job][place]++;
    uint8_t *counter = &reached[job][place][rows][bucket(old_steps)][bucket(new_steps)];
    *counter = (uint8_t)(*counter == 255 ? 255 : *counter + 1);
}

void count_deed(enum deed deed)
{
    done[deed]++;
}

void must(bool holds, enum job job, const char *property)
{
    if (holds)
        return;
    fprintf(stderr, "fuzz: broken property of %s: %s\n", tables[job].name, property);
    abort();
}

static void print_unreached(void)
{
    const char *before = "not reached: ";
    for (int job = 0; job < JOBS; job++)
        for (size_t i = 0; i < tables[job].len; i++)
            if (answers[job][i] == 0) {
                fprintf(stderr, "%s%s %u", before, tables[job].name, tables[job].numbers[i]);
                before = ", ";
            }
    for (int deed = 0; deed < DEEDS; deed++)
        if (done[deed] == 0) {
            fprintf(stderr, "%s%s", before, deeds[deed]);
            before = ", ";
        }
    fprintf(stderr, "%s\n", *before == ',' ? "" : "every answer reached");
}

void print_tally(void)
{
    fprintf(stderr, "answers: ");
    for (int job = 0; job < JOBS; job++) {
        fprintf(stderr, "%s", tables[job].name);
        for (size_t i = 0; i < tables[job].len; i++)
            fprintf(stderr, " %u:%" PRIu64, tables[job].numbers[i], answers[job][i]);
        fprintf(stderr, "; ");
    }
    for (int deed = 0; deed < DEEDS; deed++)
        fprintf(stderr, "%s %" PRIu64 "; ", deeds[deed], done[deed]);
    print_unreached();
}
