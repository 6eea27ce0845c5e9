/* A planned operation landed in several orders, and under losses of power; and a repair landed. */
#ifndef CRASH_H
#define CRASH_H

#include "jobs.h"

/* A rename or an exchange of a consistent image, as it was answered with 0 and rows. */
void try_operation(struct draws *draws, const struct image *before, const struct plan *plan, size_t rows, bool exchange);

/* A repair of any image, with buffers that may be short. */
void try_any_repair(struct draws *draws, const struct image *image, uint8_t checked);

#endif
