/*
 * What the examples that rename share: a request read from the arguments, and the plan of it tried on the image in
 * memory. records.h is included before it.
 */
#ifndef REQUEST_H
#define REQUEST_H

/* A decimal number of digits alone, and at most that. */
static uint64_t number_of(const char *name, const char *text, uint64_t most)
{
    uint64_t value = 0;
    if (*text == '\0')
        fail(UNUSABLE, name, "it is empty");
    for (; *text != '\0'; text++) {
        if (*text < '0' || *text > '9')
            fail(UNUSABLE, name, "it is no decimal number");
        uint64_t digit = (uint64_t)(*text - '0');
        if (value > (most - digit) / 10)
            fail(UNUSABLE, name, "it is too large");
        value = value * 10 + digit;
    }
    return value;
}

/* Plans the rename that the arguments ask for, which are IMAGE USER GROUP CWD NOW OLD NEW; with flags, if it has any. */
static uint64_t plan_rename(struct contents image, uint32_t flags, char **argv, uint8_t *plan)
{
    uint32_t user = (uint32_t)number_of("USER", argv[2], UINT32_MAX);
    uint32_t group = (uint32_t)number_of("GROUP", argv[3], UINT32_MAX);
    uint16_t cwd = (uint16_t)number_of("CWD", argv[4], UINT16_MAX);
    uint64_t now = number_of("NOW", argv[5], UINT64_MAX);
    return mp_rename(image.bytes, image.len, user, group, NULL, 0, cwd, MP_CURRENT_DIRECTORY, MP_CURRENT_DIRECTORY, now,
                     flags, (const uint8_t *)argv[6], strlen(argv[6]), (const uint8_t *)argv[7], strlen(argv[7]), plan,
                     PLAN_BYTES);
}

/* Prints what mp_rename has answered: the number, the rows and both counts of steps. Not every example does. */
static inline void report(uint64_t result)
{
    int printed = printf("%u %u %u %u\n", mp_number(result), mp_rows(result), mp_old_steps(result), mp_new_steps(result));
    if (printed < 0 || fflush(stdout) != 0)
        fail(UNUSABLE, "standard output", strerror(errno));
}

/* Has mp_land take every row on the image in memory, so that nothing is written to the file that it would refuse. */
static void land_rows(struct contents image, const uint8_t *plan, size_t rows)
{
    for (size_t row = 0; row < rows; row++)
        if (mp_number(mp_land(image.bytes, image.len, plan, PLAN_BYTES, row)) != 0)
            fail(REFUSED, "refused", "a row is not landable; the image file is as it was");
}

#endif
