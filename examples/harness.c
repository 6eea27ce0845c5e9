/*
 * The store that a firmware team tests against, in its own harness: it lands rows in any permitted order and loses
 * power where it likes, over and over.
 *
 *     harness IMAGE USER GROUP CWD NOW OLD NEW SEED ROUNDS
 *
 * The first arguments are those of examples/rename.c; the image file is only read. In each round the plan's rows land
 * in an order drawn from the seed until the power is cut; then mp_repair plans, its rows land in the same way, and
 * there may be further cuts. At the end of a round the image has to be the one before the rename or the finished one,
 * by whether the new entry (the row of group 2) had landed. It prints how often it was which, and how many cuts came.
 *
 * Put your own store where land_until_cut stands: what has to be kept is that a row waits for those of lower groups.
 *
 * Exit status: 0 every round ended as it has to; 1 the rename is refused; 2 a file or an argument cannot be used; 4 a
 * round ended otherwise.
 */
#define PROGRAM "harness"
#include "records.h"
#include "request.h"

enum { ARGUMENTS = 10, DECIDING_GROUP = 2, OTHER_IMAGE = 4 };

/* SplitMix64: the same seed draws the same numbers everywhere. */
static uint64_t drawn(uint64_t *state, uint64_t below)
{
    uint64_t mixed = *state += 0x9e3779b97f4a7c15;
    mixed = (mixed ^ mixed >> 30) * 0xbf58476d1ce4e5b9;
    mixed = (mixed ^ mixed >> 27) * 0x94d049bb133111eb;
    return (mixed ^ mixed >> 31) % below;
}

/* The rows that wait, and whether the rename is decided. */
struct queue {
    uint8_t plan[PLAN_BYTES];
    int waits[MP_PLAN_ROWS];
    size_t rows;
};

static void enqueue(struct queue *queue, size_t rows)
{
    queue->rows = rows;
    for (size_t row = 0; row < MP_PLAN_ROWS; row++)
        queue->waits[row] = row < rows;
}

/* The rows whose turn it is: those of the lowest group that waits. Gives their number. */
static size_t turns(const struct queue *queue, size_t *rows)
{
    size_t count = 0;
    uint8_t lowest = UINT8_MAX;
    for (size_t row = 0; row < queue->rows; row++) {
        uint8_t group = queue->plan[HEADER_BYTES * row];
        if (!queue->waits[row] || group > lowest)
            continue;
        count = group < lowest ? 0 : count;
        lowest = group;
        rows[count++] = row;
    }
    return count;
}

/* Lands waiting rows until none waits or the power is cut, once in CHANCE. Tells whether the deciding row landed. */
static int land_until_cut(struct contents image, struct queue *queue, uint64_t *seed, uint64_t chance, int *cut)
{
    size_t permitted[MP_PLAN_ROWS];
    size_t count;
    int decided = 0;
    *cut = 0;
    while (!*cut && (count = turns(queue, permitted)) > 0) {
        size_t row = permitted[drawn(seed, count)];
        if (mp_number(mp_land(image.bytes, image.len, queue->plan, PLAN_BYTES, row)) != MP_DONE)
            fail(OTHER_IMAGE, "land", "a row is refused in its turn");
        queue->waits[row] = 0;
        decided |= queue->plan[HEADER_BYTES * row] == DECIDING_GROUP;
        *cut = drawn(seed, chance) == 0;
    }
    return decided;
}

/* Repairs, with further cuts, until a repair's rows have all landed. Gives the number of cuts. */
static unsigned repair(struct contents image, struct contents scratch, struct queue *queue, uint64_t *seed)
{
    unsigned cuts = 0;
    int cut = 1;
    while (cut) {
        uint64_t result = mp_repair(image.bytes, image.len, queue->plan, PLAN_BYTES, scratch.bytes, scratch.len);
        if (mp_number(result) != MP_DONE)
            fail(OTHER_IMAGE, "repair", "it does not answer 0");
        enqueue(queue, mp_rows(result));
        land_until_cut(image, queue, seed, 6, &cut);
        cuts += (unsigned)cut;
    }
    return cuts;
}

int main(int argc, char **argv)
{
    if (argc != ARGUMENTS)
        fail(UNUSABLE, "usage", "harness IMAGE USER GROUP CWD NOW OLD NEW SEED ROUNDS");
    int file = open_file(argv[1], O_RDONLY);
    struct contents before = read_file(argv[1], file, LONGEST_IMAGE, "it is longer than any image, 53448 bytes");
    uint64_t seed = number_of("SEED", argv[8], UINT64_MAX), rounds = number_of("ROUNDS", argv[9], UINT32_MAX);
    struct queue planned = {{0}, {0}, 0};
    uint64_t result = plan_rename(before, 0, argv, planned.plan);
    report(result);
    if (mp_number(result) != MP_DONE)
        return REFUSED;
    struct contents finished = copy(before), image = copy(before), scratch = copy(before);
    land_rows(finished, planned.plan, mp_rows(result));
    unsigned long ends[2] = {0, 0}, cuts = 0;
    for (uint64_t round = 0; round < rounds; round++) {
        struct queue queue = planned;
        int cut;
        memcpy(image.bytes, before.bytes, before.len);
        enqueue(&queue, mp_rows(result));
        int decided = land_until_cut(image, &queue, &seed, 4, &cut);
        cuts += (unsigned)cut + repair(image, scratch, &queue, &seed);
        if (memcmp(image.bytes, decided ? finished.bytes : before.bytes, image.len) != 0)
            fail(OTHER_IMAGE, "image", "it is neither the one before nor the finished one");
        ends[decided]++;
    }
    printf("%lu rounds end as before, %lu finished, %lu cuts\n", ends[0], ends[1], cuts);
    return 0;
}
