/*
 * Puts a new configuration directory in the place of the live one, in an image file, and the live one in its place.
 *
 *     exchange IMAGE USER GROUP CWD NOW LIVE NEXT
 *
 * The first arguments are those of examples/rename.c. LIVE and NEXT are two paths, such as /etc/live and /etc/next; what
 * they name change places, and both names stay. With a slash behind each of them only directories are taken. What was
 * live is then under the other name: the same command once more brings it back.
 *
 * Two renames could not do this. Between moving the live directory away and moving the new one in, there is none that
 * is live, and a loss of power may leave it so; and a rename onto a directory that has entries is refused. An exchange
 * is one plan. Once its journal record (group 1) is on the disk the exchange is going to happen, whatever comes: recovery
 * carries it to its end. Until then nothing has changed.
 *
 * Between the two entries (group 2) both names may lead to one directory for a moment, and the other has no name. No
 * program should look at the image then: mp_rename answers 203 until the exchange is whole or repaired.
 *
 * Exit status: 0 the exchange is on the disk, or there was nothing to do, as between two names of one file; 1 it is
 * refused; 2 a file or an argument cannot be used. After 1 and 2 the image file is as it was. 3 writing failed: some
 * records may be new and others not, as after a loss of power, so recovery has to come before anything else.
 */
#define PROGRAM "exchange"
#include "records.h"
#include "request.h"

/* Why the image file is as it was. */
static const char *reason(unsigned number)
{
    switch (number) {
    case MP_ENOENT:
        return "LIVE or NEXT, or a directory on the way, is missing; the image file is as it was";
    case MP_EPERM:
        return "a sticky directory keeps one of them, or the last name of NEXT is not portable; the image file is as it was";
    case MP_EACCES:
        return "a directory may not be searched or written; the image file is as it was";
    case MP_EXDEV:
        return "they are on different file systems; the image file is as it was";
    case MP_ENOTDIR:
        return "something on the way, or in front of a slash, is no directory; the image file is as it was";
    case MP_EINVAL:
        return "one of them lies in the other, or ends in a dot; the image file is as it was";
    case MP_PENDING:
        return "a crash has left a journal record, so repair has to come first; the image file is as it was";
    case MP_UNSOUND:
        return "the image is not consistent; the image file is as it was";
    default:
        return "the image file is as it was";
    }
}

int main(int argc, char **argv)
{
    uint8_t plan[PLAN_BYTES];
    if (argc != 8)
        fail(UNUSABLE, "usage", "exchange IMAGE USER GROUP CWD NOW LIVE NEXT");
    int file = open_file(argv[1], O_RDWR);
    struct contents image = read_file(argv[1], file, LONGEST_IMAGE, "it is longer than any image, 53448 bytes");
    uint64_t result = plan_rename(image, MP_EXCHANGE, argv, plan);
    report(result);
    if (mp_number(result) != 0)
        fail(REFUSED, "refused", reason(mp_number(result)));
    land_rows(image, plan, mp_rows(result));
    write_plan(argv[1], file, plan, mp_rows(result));
    free(image.bytes);
    return 0;
}
