/* What a run came to, so that runs made in several ways can be held against each other. */
#ifndef TESTS_RESULT_H
#define TESTS_RESULT_H

#include "support.h"

struct result {
    uint32_t answer;
    uint32_t reason;
    uint64_t events;
    uint64_t value;
    struct machine machine;
};

bool same(const struct result *left, const struct result *right);

typedef uint32_t runs(const uint8_t *, size_t, uint8_t *, size_t, uint8_t *, size_t, const uint8_t *, size_t, uint32_t,
                      uint32_t *, uint64_t *, uint64_t *);

struct result by_run(runs *run, const uint8_t program[PROGRAM_BYTES], const struct machine *start,
                     const uint8_t *script, size_t length, uint32_t stop);

#endif
