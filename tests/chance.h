/* Chance that comes out alike each time. */
#ifndef TESTS_CHANCE_H
#define TESTS_CHANCE_H

#include <stdint.h>

void seed_random(uint64_t seed);
uint64_t any_64(void);
uint32_t any(uint32_t below);

#endif
