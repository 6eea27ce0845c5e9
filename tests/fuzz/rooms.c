/* The buffers that the library is given, each between a page that nobody may touch and bytes of a known pattern. */
#define _DEFAULT_SOURCE
#include "rooms.h"

#include <stdio.h>
#include <stdlib.h>
#include <string.h>
#include <sys/mman.h>

enum { PAGE = 4096, ROOM = 17 * PAGE, PATTERN_BYTES = 64, PATTERN = 0x5c };

static uint8_t pattern[PATTERN_BYTES];
static uint8_t *rooms[ROOMS];
static size_t lengths[ROOMS];
static bool upper_end;

static uint8_t *made_room(void)
{
    uint8_t *pages = mmap(NULL, ROOM + 2 * PAGE, PROT_NONE, MAP_PRIVATE | MAP_ANONYMOUS, -1, 0);
    if (pages == MAP_FAILED || mprotect(pages + PAGE, ROOM, PROT_READ | PROT_WRITE) != 0) {
        fprintf(stderr, "fuzz: there is no memory for the buffers\n");
        exit(2);
    }
    return pages + PAGE;
}

void make_rooms(void)
{
    memset(pattern, PATTERN, sizeof pattern);
    for (int room = 0; room < ROOMS; room++)
        rooms[room] = made_room();
}

void place_buffers(bool upper)
{
    upper_end = upper;
    for (int room = 0; room < ROOMS; room++)
        put_in((enum room)room, NULL, 0);
}

static uint8_t *buffer_of(enum room room)
{
    return upper_end ? rooms[room] + ROOM - lengths[room] : rooms[room];
}

static uint8_t *pattern_of(enum room room)
{
    return upper_end ? buffer_of(room) - PATTERN_BYTES : buffer_of(room) + lengths[room];
}

uint8_t *put_in(enum room room, const void *bytes, size_t len)
{
    if (len > LONGEST_BUFFER) {
        fprintf(stderr, "fuzz: a buffer is longer than its room\n");
        exit(2);
    }
    lengths[room] = len;
    if (len != 0)
        memcpy(buffer_of(room), bytes, len);
    memcpy(pattern_of(room), pattern, sizeof pattern);
    return buffer_of(room);
}

bool rooms_are_whole(void)
{
    for (int room = 0; room < ROOMS; room++)
        if (memcmp(pattern_of((enum room)room), pattern, sizeof pattern) != 0)
            return false;
    return true;
}
