/* Splitmix: a counter with a fixed odd step, its bits mixed twice. */
#include "random.h"

#define STEP UINT64_C(0x9E3779B97F4A7C15)
#define FIRST_MIX UINT64_C(0xBF58476D1CE4E5B9)
#define SECOND_MIX UINT64_C(0x94D049BB133111EB)

source source_from(uint64_t seed)
{
    source from = { seed };
    return from;
}

uint64_t draw_bits(source *from)
{
    uint64_t mixed;
    from->state += STEP;
    mixed = from->state;
    mixed = (mixed ^ mixed >> 30) * FIRST_MIX;
    mixed = (mixed ^ mixed >> 27) * SECOND_MIX;
    return mixed ^ mixed >> 31;
}

uint32_t draw(source *from, uint32_t below)
{
    uint64_t bits = draw_bits(from) >> 32;
    return (uint32_t)(bits * below >> 32);
}

int64_t draw_between(source *from, int64_t low, int64_t high)
{
    uint64_t width = (uint64_t)(high - low) + 1;
    return low + (int64_t)(draw_bits(from) % width);
}

int once_in(source *from, uint32_t times)
{
    return draw(from, times) == 0;
}
