/* Numbers that are the same in every run. */
#ifndef RANDOM_H
#define RANDOM_H

#include <stdint.h>

void seed_random(uint32_t seed);
uint32_t next_random(void);
int16_t other_than_zero(int most); /* of size at most `most` */

#endif
