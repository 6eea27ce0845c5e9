/*
 * Renames in an image file, crashes on the way, and repairs.
 *
 *     repair IMAGE USER GROUP CWD NOW OLD NEW ROW...
 *
 * The first arguments are those of examples/rename.c. mp_rename plans, and of its rows only those that are named are
 * written to the file, in that order; the others are lost, as in a loss of power. The file is then read again, for it
 * is all that is left. mp_repair plans from it, and the rows of that plan are written. At the end the image is the
 * one before the rename, as long as its new entry (the row of group 2) was not written, and else the finished one;
 * never anything between. Each step is printed.
 *
 * A row may only be named when its turn has come: when every row of a lower group has been named before it. Inside a
 * group any order will do. examples/rename.c tells what a disk that does not keep to this may leave.
 *
 * Exit status: 0 the image is as it has to be; 1 the rename or the repair is refused; 2 a file or an argument cannot
 * be used; 3 writing failed; 4 the image is another one. After 2, and after 1 if it is the rename that is refused, the
 * image file is as it was.
 */
#define PROGRAM "repair"
#include "records.h"
#include "request.h"

enum { FIRST_ROW = 8, MOST_ROWS = MP_PLAN_ROWS, DECIDING_GROUP = 2, OTHER_IMAGE = 4 };

static void said(int printed)
{
    if (printed < 0 || fflush(stdout) != 0)
        fail(UNFINISHED, "standard output", strerror(errno));
}

static struct contents read_image(const char *name, int file)
{
    return read_file(name, file, LONGEST_IMAGE, "it is longer than any image, 53448 bytes");
}

static int same(struct contents one, struct contents other)
{
    return one.len == other.len && memcmp(one.bytes, other.bytes, one.len) == 0;
}

/* Whether no row of a lower group still waits, and the row itself does. */
static int is_its_turn(const uint8_t *plan, size_t rows, const int *landed, size_t row)
{
    for (size_t other = 0; other < rows; other++)
        if (!landed[other] && plan[HEADER_BYTES * other] < plan[HEADER_BYTES * row])
            return 0;
    return !landed[row];
}

/* Reads which rows are to land, in their order, before anything is written. */
static void read_rows(const uint8_t *plan, size_t rows, char **names, size_t count, size_t *order)
{
    int landed[MOST_ROWS] = {0};
    for (size_t i = 0; i < count; i++) {
        size_t row = (size_t)number_of("ROW", names[i], MOST_ROWS);
        if (row >= rows)
            fail(UNUSABLE, names[i], "the plan has no such row; the image file is as it was");
        if (!is_its_turn(plan, rows, landed, row))
            fail(UNUSABLE, names[i], "the turn of this row has not come, or is over; the image file is as it was");
        landed[row] = 1;
        order[i] = row;
    }
}

/* Writes some rows of the rename, closes the file, and gives whether the new entry is among them. */
static int crash_after(const char *name, int file, const uint8_t *plan, const size_t *order, size_t count)
{
    int decided = 0;
    for (size_t i = 0; i < count; i++) {
        unsigned group = plan[HEADER_BYTES * order[i]];
        write_row(name, file, plan, order[i]);
        sync_file(name, file);
        said(printf("row %zu of group %u has landed\n", order[i], group));
        decided = decided || group == DECIDING_GROUP;
    }
    if (close(file) != 0)
        fail(UNFINISHED, name, strerror(errno));
    return decided;
}

/* Repairs the image file from what it holds. The scratch shows what the rows lead to. */
static void repair(const char *name)
{
    uint8_t plan[PLAN_BYTES];
    int file = open_file(name, O_RDWR);
    struct contents image = read_image(name, file);
    struct contents scratch = copy(image);
    uint64_t result = mp_repair(image.bytes, image.len, plan, PLAN_BYTES, scratch.bytes, scratch.len);
    said(printf("repair: %u, %u rows\n", mp_number(result), mp_rows(result)));
    if (mp_number(result) != 0)
        fail(REFUSED, "refused", "the image file is as the crash has left it");
    land_rows(image, plan, mp_rows(result));
    if (!same(image, scratch))
        fail(OTHER_IMAGE, name, "the rows of the repair do not lead to what its scratch shows");
    write_plan(name, file, plan, mp_rows(result));
    for (size_t row = 0; row < mp_rows(result); row++)
        said(printf("row %zu of group %u has landed\n", row, plan[HEADER_BYTES * row]));
    free(scratch.bytes);
    free(image.bytes);
}

/* Reads the file once more: it has to be just that image. */
static void compare(const char *name, struct contents expected, const char *words)
{
    int file = open_file(name, O_RDONLY);
    struct contents image = read_image(name, file);
    if (close(file) != 0)
        fail(UNUSABLE, name, strerror(errno));
    if (!same(image, expected))
        fail(OTHER_IMAGE, name, "the image is not the one that the crash has to lead to");
    said(printf("the image is %s\n", words));
    free(image.bytes);
}

int main(int argc, char **argv)
{
    uint8_t plan[PLAN_BYTES];
    size_t order[MOST_ROWS];
    if (argc < FIRST_ROW || argc > FIRST_ROW + MOST_ROWS)
        fail(UNUSABLE, "usage", "repair IMAGE USER GROUP CWD NOW OLD NEW ROW...");
    int file = open_file(argv[1], O_RDWR);
    struct contents before = read_image(argv[1], file);
    uint64_t result = plan_rename(before, 0, argv, plan);
    size_t rows = mp_rows(result), count = (size_t)(argc - FIRST_ROW);
    said(printf("rename: %u, %zu rows\n", mp_number(result), rows));
    if (mp_number(result) != 0)
        fail(REFUSED, "refused", "the image file is as it was");
    struct contents finished = copy(before);
    land_rows(finished, plan, rows);
    read_rows(plan, rows, argv + FIRST_ROW, count, order);
    int decided = crash_after(argv[1], file, plan, order, count);
    said(printf("crash: %zu rows are lost\n", rows - count));
    repair(argv[1]);
    if (decided)
        compare(argv[1], finished, "the finished one");
    else
        compare(argv[1], before, "the one before");
    free(finished.bytes);
    free(before.bytes);
    return 0;
}
