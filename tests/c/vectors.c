/*
 * Runs the stored cases through the library's functions. docs/VECTORS.md tells the files' formats.
 *
 * Each buffer lies in a heap block of exactly its length, so that a memory checker sees any byte
 * touched past its end.
 */
#include "mirepillar.h"

#include <stdio.h>
#include <stdlib.h>
#include <string.h>

enum { TAG_BASE = 1, TAG_CHECK = 2, TAG_WALK = 3, TAG_LAND = 4, TAG_RENAME = 5, TAG_REPAIR = 6, TAG_GROUPS = 7 };
enum { TAG_COMPARE = 8, TAG_FLAGS = 9 };
enum { LONGEST_BASE = 53448, LONGEST_CASE = 131072, MOST_EDITS = 12, LONGEST_PLAN = 1024, LONGEST_PATH = 600 };
enum { LONGEST_SCRATCH = 131072, MOST_GROUPS = 24 };
enum { MOST_TOLD = 10 };

/* A file's bytes, and the part of them that is not yet read. */
struct input {
    const char *path;
    uint8_t *bytes;
    const uint8_t *at;
    size_t left;
};

/* A heap block with as many bytes as a buffer has: none where it is empty. */
struct buffer {
    uint8_t *bytes;
    size_t len;
};

/* The caller's further groups. An empty list has one number behind its end, so that a tool sees a block for it. */
struct groups {
    uint32_t *numbers;
    size_t len;
};

static uint8_t base[LONGEST_BASE];
static size_t base_len;

static void fail(const char *path, const char *sentence)
{
    fprintf(stderr, "vectors: %s: %s\n", path, sentence);
    exit(2);
}

static struct input open_input(const char *path)
{
    FILE *file = fopen(path, "rb");
    if (file == NULL || fseek(file, 0, SEEK_END) != 0)
        fail(path, "the file cannot be opened");
    long len = ftell(file);
    uint8_t *bytes = len > 0 ? malloc((size_t)len) : NULL;
    rewind(file);
    if (bytes == NULL || fread(bytes, 1, (size_t)len, file) != (size_t)len)
        fail(path, "the file is empty or cannot be read");
    fclose(file);
    struct input input = {path, bytes, bytes, (size_t)len};
    return input;
}

static const uint8_t *take(struct input *input, size_t len)
{
    if (input->left < len)
        fail(input->path, "the file ends inside an item");
    const uint8_t *bytes = input->at;
    input->at += len;
    input->left -= len;
    return bytes;
}

static uint64_t take_number(struct input *input, unsigned len)
{
    const uint8_t *bytes = take(input, len);
    uint64_t value = 0;
    for (unsigned i = len; i > 0; i--)
        value = value << 8 | bytes[i - 1];
    return value;
}

static size_t take_up_to(struct input *input, unsigned len, size_t limit)
{
    uint64_t value = take_number(input, len);
    if (value > limit)
        fail(input->path, "a length or a position is over its limit");
    return (size_t)value;
}

/* A block with the first bytes of another and zeros after them. */
static struct buffer block(size_t len, const uint8_t *from, size_t from_len)
{
    struct buffer buffer = {len > 0 ? calloc(len, 1) : NULL, len};
    size_t kept = len < from_len ? len : from_len;
    if (len > 0 && buffer.bytes == NULL)
        fail("calloc", "no memory for a buffer");
    if (kept > 0)
        memcpy(buffer.bytes, from, kept);
    return buffer;
}

static void read_base(struct input *input)
{
    base_len = take_up_to(input, 4, LONGEST_BASE);
    memcpy(base, take(input, base_len), base_len);
}

/* The image of a case, made from the base. */
static struct buffer read_image(struct input *input)
{
    struct buffer image = block(take_up_to(input, 4, LONGEST_CASE), base, base_len);
    size_t edits = take_up_to(input, 1, image.len > 0 ? MOST_EDITS : 0);
    for (size_t i = 0; i < edits; i++) {
        size_t position = take_up_to(input, 4, image.len - 1);
        image.bytes[position] = *take(input, 1);
    }
    return image;
}

static struct buffer read_plan(struct input *input)
{
    struct buffer plan = block(take_up_to(input, 2, LONGEST_PLAN), NULL, 0);
    size_t runs = take_up_to(input, 1, plan.len > 0 ? 255 : 0);
    for (size_t i = 0; i < runs; i++) {
        size_t position = take_up_to(input, 2, plan.len - 1);
        size_t len = take_up_to(input, 1, plan.len - position);
        memcpy(plan.bytes + position, take(input, len), len);
    }
    return plan;
}

/* A buffer to be written, with other bytes than a job leaves; its length is a number of so many bytes. */
static struct buffer read_buffer(struct input *input, unsigned len_bytes, size_t longest)
{
    struct buffer buffer = block(take_up_to(input, len_bytes, longest), NULL, 0);
    uint8_t fill = *take(input, 1);
    for (size_t i = 0; i < buffer.len; i++)
        buffer.bytes[i] = fill ^ (uint8_t)i;
    return buffer;
}

/* So many further groups, in a heap block as any buffer is. */
static struct groups read_groups(struct input *input, size_t len)
{
    struct groups groups = {calloc(len > 0 ? len : 1, sizeof(uint32_t)), len};
    if (groups.numbers == NULL)
        fail("calloc", "no memory for the groups");
    for (size_t i = 0; i < len; i++)
        groups.numbers[i] = (uint32_t)take_number(input, 4);
    return groups;
}

/* Reads a request, which has flags and groups, groups alone or neither by its tag, and gives what mp_rename answers. */
static uint64_t ask_rename(struct input *input, uint8_t tag, struct buffer image, struct buffer plan)
{
    uint32_t user = (uint32_t)take_number(input, 4);
    uint32_t group = (uint32_t)take_number(input, 4);
    uint16_t cwd = (uint16_t)take_number(input, 2);
    uint8_t old_start = *take(input, 1);
    uint8_t new_start = *take(input, 1);
    uint64_t now = take_number(input, 8);
    uint32_t flags = tag == TAG_FLAGS ? (uint32_t)take_number(input, 4) : 0;
    struct groups groups = read_groups(input, tag != TAG_RENAME ? take_up_to(input, 2, MOST_GROUPS) : 0);
    size_t old_len = take_up_to(input, 2, LONGEST_PATH);
    size_t new_len = take_up_to(input, 2, LONGEST_PATH);
    struct buffer old_path = block(old_len, take(input, old_len), old_len);
    struct buffer new_path = block(new_len, take(input, new_len), new_len);
    uint64_t result = mp_rename(image.bytes, image.len, user, group, groups.numbers, groups.len, cwd, old_start,
                                new_start, now, flags, old_path.bytes, old_path.len, new_path.bytes,
                                new_path.len, plan.bytes, plan.len);
    free(new_path.bytes);
    free(old_path.bytes);
    free(groups.numbers);
    return result;
}

static uint64_t read_answer(struct input *input, uint8_t end)
{
    uint64_t answer = 0;
    uint8_t character;
    while ((character = *take(input, 1)) != end) {
        if (character < '0' || character > '9')
            fail(input->path, "a line is not made of decimal numbers");
        answer = answer * 10 + (character - '0');
    }
    return answer;
}

static uint64_t checksum(struct buffer buffer)
{
    uint64_t sum = 0;
    for (size_t i = 0; i < buffer.len; i++)
        sum = (sum * 31 + buffer.bytes[i] + 1) % 4294967291u;
    return sum;
}

/* Whether a value is the expected one; the first few that are not are told. */
static int same(const char *what, unsigned long count, uint64_t value, uint64_t expected)
{
    static unsigned told;
    if (value != expected && told++ < MOST_TOLD)
        fprintf(stderr, "vectors: case %lu: %s is %llu, expected %llu\n", count, what,
                (unsigned long long)value, (unsigned long long)expected);
    return value == expected;
}

static int check_case(struct input *cases, struct input *answers, unsigned long count)
{
    struct buffer image = read_image(cases);
    uint64_t before = checksum(image);
    uint64_t result = mp_check(image.bytes, image.len);
    if (checksum(image) != before)
        fail("mp_check", "an image was changed");
    free(image.bytes);
    /* The whole result is compared, since these jobs leave all but the number 0. */
    return same("the result of mp_check", count, result, read_answer(answers, '\n'));
}

static int land_case(struct input *cases, struct input *answers, unsigned long count)
{
    struct buffer image = read_image(cases);
    struct buffer plan = read_plan(cases);
    uint64_t before = checksum(plan);
    uint64_t result = mp_land(image.bytes, image.len, plan.bytes, plan.len, take_number(cases, 8));
    if (checksum(plan) != before)
        fail("mp_land", "a plan was changed");
    int same_result = same("the result of mp_land", count, result, read_answer(answers, ' '));
    int same_image = same("the image's checksum after mp_land", count, checksum(image), read_answer(answers, '\n'));
    free(plan.bytes);
    free(image.bytes);
    return same_result && same_image;
}

static int rename_case(struct input *cases, uint8_t tag, struct input *answers, unsigned long count)
{
    struct buffer image = read_image(cases);
    struct buffer plan = read_buffer(cases, 2, LONGEST_PLAN);
    uint64_t before = checksum(image);
    uint64_t result = ask_rename(cases, tag, image, plan);
    if (checksum(image) != before)
        fail("mp_rename", "an image was changed");
    int differences = !same("the number of mp_rename", count, mp_number(result), read_answer(answers, ' '));
    differences += !same("the rows of mp_rename", count, mp_rows(result), read_answer(answers, ' '));
    differences += !same("the steps of old", count, mp_old_steps(result), read_answer(answers, ' '));
    differences += !same("the steps of new", count, mp_new_steps(result), read_answer(answers, ' '));
    differences += !same("the rest of the result of mp_rename", count, result >> 48, 0);
    differences += !same("the buffer's checksum after mp_rename", count, checksum(plan), read_answer(answers, '\n'));
    free(plan.bytes);
    free(image.bytes);
    return differences == 0;
}

static int repair_case(struct input *cases, struct input *answers, unsigned long count)
{
    struct buffer image = read_image(cases);
    struct buffer plan = read_buffer(cases, 2, LONGEST_PLAN);
    struct buffer scratch = read_buffer(cases, 4, LONGEST_SCRATCH);
    uint64_t before = checksum(image);
    uint64_t result = mp_repair(image.bytes, image.len, plan.bytes, plan.len, scratch.bytes, scratch.len);
    if (checksum(image) != before)
        fail("mp_repair", "an image was changed");
    int differences = !same("the number of mp_repair", count, mp_number(result), read_answer(answers, ' '));
    differences += !same("the rows of mp_repair", count, mp_rows(result), read_answer(answers, ' '));
    differences += !same("the rest of the result of mp_repair", count, result >> 16, 0);
    differences += !same("the plan's checksum after mp_repair", count, checksum(plan), read_answer(answers, ' '));
    differences += !same("the scratch's checksum after it", count, checksum(scratch), read_answer(answers, '\n'));
    free(scratch.bytes);
    free(plan.bytes);
    free(image.bytes);
    return differences == 0;
}

static void skip_walk(struct input *cases)
{
    enum { EDIT_BYTES = 5, STARTS_BYTES = 12 };
    take(cases, EDIT_BYTES * take_up_to(cases, 1, MOST_EDITS));
    take(cases, STARTS_BYTES);
    size_t old_len = take_up_to(cases, 2, LONGEST_PATH);
    size_t new_len = take_up_to(cases, 2, LONGEST_PATH);
    take(cases, old_len + new_len);
}

static void skip_compare(struct input *cases)
{
    size_t first_len = *take(cases, 1);
    size_t second_len = *take(cases, 1);
    take(cases, first_len + second_len);
}

/* Steps over a case and its answer: the walk and the compare are no jobs of their own, so there is nothing to call. */
static void skip(uint8_t tag, struct input *cases, struct input *answers)
{
    if (tag == TAG_WALK)
        skip_walk(cases);
    else
        skip_compare(cases);
    while (*take(answers, 1) != '\n')
        ;
}

/* Runs the cases of one file, and gives the number of differences. */
static unsigned long run(const char *path, struct input *answers)
{
    struct input cases = open_input(path);
    unsigned long count = 0, skipped = 0, differences = 0;
    while (cases.left > 0) {
        uint8_t tag = *take(&cases, 1);
        switch (tag) {
        case TAG_BASE:
            read_base(&cases);
            break;
        case TAG_CHECK:
            differences += !check_case(&cases, answers, ++count);
            break;
        case TAG_WALK:
        case TAG_COMPARE:
            skip(tag, &cases, answers);
            skipped++;
            break;
        case TAG_LAND:
            differences += !land_case(&cases, answers, ++count);
            break;
        case TAG_RENAME:
        case TAG_GROUPS:
        case TAG_FLAGS:
            differences += !rename_case(&cases, tag, answers, ++count);
            break;
        case TAG_REPAIR:
            differences += !repair_case(&cases, answers, ++count);
            break;
        default:
            fail(path, "an item has an unknown tag");
        }
    }
    if (count > 0)
        printf("%s: %lu cases, %lu differences\n", path, count, differences);
    if (skipped > 0)
        printf("%s: %lu cases passed over, since no job answers them\n", path, skipped);
    free(cases.bytes);
    return differences;
}

/* The files of cases in the order of their answers. */
int main(int argc, char **argv)
{
    if (argc < 3)
        fail("usage", "vectors ANSWERS CASES...");
    struct input answers = open_input(argv[1]);
    unsigned long differences = 0;
    for (int i = 2; i < argc; i++)
        differences += run(argv[i], &answers);
    if (answers.left > 0)
        fail(argv[1], "there are more answers than cases");
    free(answers.bytes);
    return differences > 0;
}
