/*
 * Checks image files.
 *
 *     check IMAGE...
 *
 * For each file the number of mp_check is printed, and what it means: 0 the image is consistent, 203 a journal record
 * is pending, 201 anything else. The files are only read.
 *
 * Exit status: 0 every image is consistent; 1 one of them is not; 2 a file or an argument cannot be used.
 */
#define PROGRAM "check"
#include "records.h"

static const char *meaning(uint8_t number)
{
    switch (number) {
    case MP_DONE:
        return "consistent";
    case MP_PENDING:
        return "a journal record is pending: repair it first";
    default:
        return "not consistent";
    }
}

int main(int argc, char **argv)
{
    int status = 0;
    if (argc < 2)
        fail(UNUSABLE, "usage", "check IMAGE...");
    for (int at = 1; at < argc; at++) {
        int file = open_file(argv[at], O_RDONLY);
        struct contents image = read_file(argv[at], file, LONGEST_IMAGE, "it is longer than any image, 53448 bytes");
        uint8_t number = mp_number(mp_check(image.bytes, image.len));
        if (printf("%u %s: %s\n", number, argv[at], meaning(number)) < 0 || fflush(stdout) != 0)
            fail(UNUSABLE, "standard output", strerror(errno));
        if (number != MP_DONE)
            status = REFUSED;
        free(image.bytes);
        close(file);
    }
    return status;
}
