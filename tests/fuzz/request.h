/* Requests for a rename, drawn from bytes on an image. */
#ifndef REQUEST_H
#define REQUEST_H

#include "draws.h"
#include "image.h"

enum { LONGEST_PATH = 300, MOST_GROUPS_GIVEN = 20 };

struct path {
    uint8_t bytes[LONGEST_PATH];
    size_t len;
};

struct request {
    uint32_t user, group;
    uint32_t groups[MOST_GROUPS_GIVEN];
    size_t groups_len;
    uint16_t cwd;
    uint8_t old_start, new_start;
    uint64_t now;
    uint32_t flags;
    struct path old_path, new_path;
};

/* The image is a consistent one: its names are what most paths are made of. */
void draw_request(struct draws *draws, const struct image *image, struct request *request);

#endif
