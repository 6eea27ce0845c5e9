/* Numbers drawn from the fuzzer's bytes, and from a generator once these are used up. */
#include "draws.h"

/* The generator splitmix64: any seed will do, 0 included. */
static uint8_t generated(struct draws *draws)
{
    uint64_t mixed = draws->state += 0x9e3779b97f4a7c15u;
    mixed = (mixed ^ mixed >> 30) * 0xbf58476d1ce4e5b9u;
    mixed = (mixed ^ mixed >> 27) * 0x94d049bb133111ebu;
    return (uint8_t)(mixed >> 56);
}

uint8_t draw_byte(struct draws *draws)
{
    if (draws->left == 0)
        return generated(draws);
    draws->left--;
    return *draws->bytes++;
}

uint16_t draw_u16(struct draws *draws)
{
    uint16_t low = draw_byte(draws);
    return (uint16_t)(low | draw_byte(draws) << 8);
}

uint32_t draw_u32(struct draws *draws)
{
    uint32_t low = draw_u16(draws);
    return low | (uint32_t)draw_u16(draws) << 16;
}

uint64_t draw_u64(struct draws *draws)
{
    uint64_t low = draw_u32(draws);
    return low | (uint64_t)draw_u32(draws) << 32;
}

/* One byte where that is enough: the fewer bytes a number takes, the more a changed byte tells. */
size_t draw_below(struct draws *draws, size_t bound)
{
    return (bound <= 256 ? draw_byte(draws) : draw_u16(draws)) % bound;
}

bool draw_one_in(struct draws *draws, unsigned times)
{
    return draw_below(draws, times) == 1;
}
