/* The sides; with BENCH_BEFORE also the earlier galhoveia. The Makefile gives each copy of a library calls of its own. */
#include "sides.h"

#include "../desk/galhoveia.h"
#include "../second/second.h"

#define DECLARE(name)                                                                                                  \
    uint32_t name##_fresh(uint8_t *, size_t, uint8_t *, size_t, uint32_t, uint64_t *);                                \
    uint32_t name##_run(const uint8_t *, size_t, uint8_t *, size_t, uint8_t *, size_t, const uint8_t *, size_t,       \
                        uint32_t, uint32_t *, uint64_t *, uint64_t *);                                                \
    uint32_t name##_step(const uint8_t *, size_t, uint8_t *, size_t, uint8_t *, size_t, uint8_t, uint64_t *);         \
    uint32_t name##_list(const uint8_t *, size_t, uint32_t, uint8_t *, size_t, uint64_t *, uint64_t *);               \
    uint32_t name##_level(const uint8_t *, size_t, const uint8_t *, size_t, int32_t *, uint64_t *);                   \
    uint32_t name##_picture(const uint8_t *, size_t, const uint8_t *, size_t, const uint8_t *, size_t, uint8_t *,     \
                            size_t, uint64_t *, uint64_t *);

#define DECLARE_LATER(name, attribute)                                                                                 \
    uint32_t name##_listing_write(const uint8_t *, size_t, uint8_t *, size_t, uint64_t *, uint64_t *) attribute;      \
    uint32_t name##_listing_read(const uint8_t *, size_t, uint8_t *, size_t, uint64_t *) attribute;                   \
    uint32_t name##_run_two(const uint8_t *, size_t, const uint8_t *, size_t, uint8_t *, size_t, uint8_t *, size_t,   \
                            uint8_t *, size_t, uint8_t *, size_t, uint8_t *, size_t, uint8_t *, size_t,               \
                            const uint8_t *, size_t, uint32_t, uint32_t, uint32_t *, uint32_t *, uint64_t *,          \
                            uint64_t *) attribute;                                                                     \
    uint32_t name##_xref_build(const uint8_t *, size_t, uint16_t *, size_t, uint64_t *) attribute;                    \
    uint32_t name##_xref_list(const uint8_t *, size_t, const uint16_t *, size_t, uint32_t, uint8_t *, size_t,         \
                              uint64_t *, uint64_t *) attribute;                                                       \
    uint32_t name##_xref_replace(uint8_t *, size_t, uint16_t *, size_t, uint32_t, uint16_t, uint64_t *) attribute;

#define CALLS(name)                                                                                                    \
    {                                                                                                                  \
        name##_fresh, name##_run, name##_step, name##_list, name##_level, name##_picture, name##_listing_write,       \
            name##_listing_read, name##_run_two, name##_xref_build, name##_xref_list, name##_xref_replace             \
    }

DECLARE(now0)
DECLARE(now1)
DECLARE(now2)
DECLARE(now3)
DECLARE_LATER(now0, )
DECLARE_LATER(now1, )
DECLARE_LATER(now2, )
DECLARE_LATER(now3, )

#ifdef BENCH_BEFORE
DECLARE(before0)
DECLARE(before1)
DECLARE(before2)
DECLARE(before3)
DECLARE_LATER(before0, __attribute__((weak)))
DECLARE_LATER(before1, __attribute__((weak)))
DECLARE_LATER(before2, __attribute__((weak)))
DECLARE_LATER(before3, __attribute__((weak)))

const int sides = BEFORE + 1;
#else
const int sides = BEFORE;
#endif

static const struct side side[SIDES_MOST][OFFSETS] = {
    [GALHOVEIA] = {CALLS(now0), CALLS(now1), CALLS(now2), CALLS(now3)},
    [SECOND] = {CALLS(second), CALLS(second), CALLS(second), CALLS(second)},
#ifdef BENCH_BEFORE
    [BEFORE] = {CALLS(before0), CALLS(before1), CALLS(before2), CALLS(before3)},
#endif
};

const struct side *side_in(int turn, int at)
{
    return &side[at][turn % OFFSETS];
}

size_t record_bytes(const struct side *asked)
{
    static size_t found[SIDES_MOST * OFFSETS];
    size_t *bytes = &found[asked - side[0]];
    uint8_t memory[GALHOVEIA_MEMORY_BYTES], record[GALHOVEIA_RECORD_BYTES];
    uint64_t value;

    if (*bytes == 0) {
        *bytes = GALHOVEIA_RECORD_BYTES;
        while (asked->fresh(memory, sizeof memory, record, *bytes, 0, &value) != GALHOVEIA_DONE)
            --*bytes;
    }
    return *bytes;
}

bool adjusts_the_cell(const struct side *asked)
{
    enum { CELL = 0x020, DAA = 0xCB00 | CELL };
    uint8_t program[GALHOVEIA_PROGRAM_BYTES] = {DAA >> 8, DAA & 0xFF};
    uint8_t memory[GALHOVEIA_MEMORY_BYTES], record[GALHOVEIA_RECORD_BYTES];
    size_t bytes = record_bytes(asked);
    uint64_t value;

    (void)asked->fresh(memory, sizeof memory, record, bytes, 0, &value);
    memory[CELL] = 12; /* and AC is 0 */
    (void)asked->step(program, sizeof program, memory, sizeof memory, record, bytes, GALHOVEIA_EVENT_CYCLE, &value);
    return memory[CELL] == 2;
}
