/* Numbers drawn from the fuzzer's bytes, and from a generator once these are used up. */
#ifndef DRAWS_H
#define DRAWS_H

#include <stdbool.h>
#include <stddef.h>
#include <stdint.h>

/* The generator goes on where the bytes end, so that a short input already gives a whole tree and a request. */
struct draws {
    const uint8_t *bytes;
    size_t left;
    uint64_t state;
};

uint8_t draw_byte(struct draws *draws);
uint16_t draw_u16(struct draws *draws);
uint32_t draw_u32(struct draws *draws);
uint64_t draw_u64(struct draws *draws);

/* A number below the bound, which is not 0. */
size_t draw_below(struct draws *draws, size_t bound);

/* True once in so many times. */
bool draw_one_in(struct draws *draws, unsigned times);

#endif
