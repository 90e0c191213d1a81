#include "random.h"

static uint32_t state = 1;

void seed_random(uint32_t seed) { state = seed * 2654435761u | 1; }

uint32_t next_random(void) {
    state ^= state << 13;
    state ^= state >> 17;
    state ^= state << 5;
    return state;
}

int16_t other_than_zero(int most) {
    int v = (int)(next_random() % (uint32_t)most) + 1;
    return (int16_t)(next_random() % 2 ? v : -v);
}
