/* The four jobs, each called with guarded buffers, and what has to hold of every single call. */
#ifndef JOBS_H
#define JOBS_H

#include "draws.h"
#include "image.h"
#include "request.h"

enum { LONGEST_PLAN = 700, LONGEST_SCRATCH = LONGEST_IMAGE + 64 };

/* A buffer for a plan, of which a job is given as many bytes as the length says; and one for an outcome. */
struct plan {
    size_t len;
    uint8_t bytes[LONGEST_PLAN];
};

struct scratch {
    size_t len;
    uint8_t bytes[LONGEST_SCRATCH];
};

/* Buffers full of leavings, mostly of a length that is enough; once in so many times too short, or never at 0. */
void draw_plan(struct draws *draws, struct plan *plan, unsigned short_in);
void draw_scratch(struct draws *draws, struct scratch *scratch, size_t image_len, unsigned short_in);

/* The ordering group of a row, and the place of the record that it covers. */
unsigned group_of(const struct plan *plan, size_t row);
size_t offset_of(const struct plan *plan, size_t row);
const uint8_t *body_of(const struct plan *plan, size_t row);

/* Each calls its job and gives its answer; what the job has written is in the arguments. */
uint8_t try_check(const struct image *image);
uint64_t try_rename(const struct image *image, const struct request *request, struct plan *plan);
uint8_t try_land(struct image *image, const struct plan *plan, uint64_t row);
uint64_t try_repair(const struct image *image, struct plan *plan, struct scratch *scratch);

#endif
