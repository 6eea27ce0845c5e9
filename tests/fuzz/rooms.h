/*
 * The buffers that the library is given. It is not instrumented, so that no checker sees what it touches: each buffer
 * therefore borders on a page that nobody may touch, and on bytes of a known pattern at its other side.
 */
#ifndef ROOMS_H
#define ROOMS_H

#include <stdbool.h>
#include <stddef.h>
#include <stdint.h>

enum room { IMAGE_ROOM, PLAN_ROOM, SCRATCH_ROOM, GROUPS_ROOM, OLD_ROOM, NEW_ROOM, ROOMS };

/* The longest buffer, behind or in front of which the pattern still has its place. */
enum { LONGEST_BUFFER = 69000 };

void make_rooms(void);

/* At which end of their rooms the buffers lie from now on: true for the upper one. */
void place_buffers(bool upper);

/* The room's buffer of that length, with a copy of those bytes. */
uint8_t *put_in(enum room room, const void *bytes, size_t len);

/* Whether the pattern beside the buffer of every room is as it was. */
bool rooms_are_whole(void);

#endif
