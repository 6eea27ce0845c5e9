/*
 * Applies a plan to an image file.
 *
 *     land IMAGE PLAN
 *
 * mp_land first takes every row on a copy of the image in memory, and the number that it answers is printed.
 * Only if it takes them all is the file written: each record by itself, at its own offset, one ordering group
 * after the other, with a sync behind each group.
 *
 * Exit status: 0 the plan is on the disk; 1 a row is refused; 2 a file cannot be used. After 1 and 2 the image
 * file is as it was. 3 writing failed: some records may be new and others not, as after a loss of power, so
 * recovery has to come before anything else.
 */
#define PROGRAM "land"
#include "records.h"

/* A plan takes 648 bytes, and what a longer file has behind them is not used. */
enum { LONGEST_PLAN = 65536, ROWS = MP_PLAN_ROWS };

/* A header of eight zeros is no row. The plan has at least 648 bytes here, since mp_land did not answer 205. */
static int is_row(struct contents plan, size_t row)
{
    static const uint8_t none[HEADER_BYTES];
    return row < ROWS && memcmp(plan.bytes + HEADER_BYTES * row, none, HEADER_BYTES) != 0;
}

static void report(size_t row, unsigned number, const char *words)
{
    if (printf("row %zu: %u%s\n", row, number, words) < 0 || fflush(stdout) != 0)
        fail(UNUSABLE, "standard output", strerror(errno));
}

static const char *reason(unsigned number)
{
    switch (number) {
    case MP_SHORT_BUFFER:
        return "the plan has fewer than 648 bytes; the image file is as it was";
    case MP_UNSOUND:
        return "the layout of the image is bad; the image file is as it was";
    default:
        return "the row is not landable on this image; the image file is as it was";
    }
}

/*
 * Has mp_land take every row on the image in memory, and gives the number of rows. Row 0 is always asked for, so
 * that a short plan (205) and a bad layout (201) are told of a plan without rows too. Behind these two, a first
 * header of zeros is answered by 207, and here that is no error: a rename between two names of one file succeeds
 * with a plan of no rows, and there is nothing to apply. Any later header of zeros ends the plan.
 */
static size_t land_rows(struct contents image, struct contents plan)
{
    size_t row = 0;
    do {
        unsigned number = mp_number(mp_land(image.bytes, image.len, plan.bytes, plan.len, row));
        if (number == MP_BAD_ROW && !is_row(plan, row)) {
            report(row, number, ", and the plan has no rows");
            return 0;
        }
        report(row, number, "");
        if (number != 0)
            fail(REFUSED, "refused", reason(number));
        row++;
    } while (is_row(plan, row));
    return row;
}

int main(int argc, char **argv)
{
    if (argc != 3)
        fail(UNUSABLE, "usage", "land IMAGE PLAN");
    int image_file = open_file(argv[1], O_RDWR);
    int plan_file = open_file(argv[2], O_RDONLY);
    struct contents image = read_file(argv[1], image_file, LONGEST_IMAGE, "it is longer than any image, 53448 bytes");
    struct contents plan = read_file(argv[2], plan_file, LONGEST_PLAN, "it is longer than 65536 bytes; a plan takes 648");
    if (close(plan_file) != 0)
        fail(UNUSABLE, argv[2], strerror(errno));
    size_t rows = land_rows(image, plan);
    write_plan(argv[1], image_file, plan.bytes, rows);
    free(plan.bytes);
    free(image.bytes);
    return 0;
}
