/*
 * Renames in an image file.
 *
 *     rename IMAGE USER GROUP CWD NOW OLD NEW
 *
 * The caller's user and group, the current directory's inode and the time are decimal numbers. mp_rename plans,
 * and its number, the rows and both counts of steps are printed. Where the number is 0, mp_land takes every row
 * on the copy of the image in memory, and then the file is written: each record by itself, at its own offset,
 * one ordering group after the other, with a sync behind each group.
 *
 * Rows listed in a tidy order hide what the groups are for: written one by one as they stand in the plan they
 * always come out right, and so does every test that writes them so. But a disk takes what is between two syncs
 * in any order, and may lose power after any record. Without the groups it may leave:
 *
 *   - the old entry cleared and the new one not yet written: the file has no name any more, and is lost;
 *   - a replaced file freed while its entry still stands: a name that leads to nothing;
 *   - the new entry written, and no journal record yet: two names and a count of one, and recovery, which reads
 *     the journal record alone, does not know of it;
 *   - the journal record cleared ahead of counts and times: these stay wrong, and nothing looks for them again.
 *
 * The first of these is why the old entry is cleared in a group behind that of the new entry, and not in the
 * same one, however early the new entry stands in the list.
 *
 * Exit status: 0 the rename is on the disk, or there was nothing to do, as between two names of one file; 1 it is
 * refused; 2 a file or an argument cannot be used. After 1 and 2 the image file is as it was. 3 writing failed:
 * some records may be new and others not, as after a loss of power, so recovery has to come before anything else.
 */
#define PROGRAM "rename"
#include "records.h"
#include "request.h"

int main(int argc, char **argv)
{
    uint8_t plan[PLAN_BYTES];
    if (argc != 8)
        fail(UNUSABLE, "usage", "rename IMAGE USER GROUP CWD NOW OLD NEW");
    int file = open_file(argv[1], O_RDWR);
    struct contents image = read_file(argv[1], file, LONGEST_IMAGE, "it is longer than any image, 53448 bytes");
    uint64_t result = plan_rename(image, 0, argv, plan);
    report(result);
    if (mp_number(result) != 0)
        fail(REFUSED, "refused", "the image file is as it was");
    land_rows(image, plan, mp_rows(result));
    write_plan(argv[1], file, plan, mp_rows(result));
    free(image.bytes);
    return 0;
}
