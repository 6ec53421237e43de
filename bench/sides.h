/* What is measured side by side: galhoveia, the second emulator and, where one is given, an earlier galhoveia. */
#ifndef BENCH_SIDES_H
#define BENCH_SIDES_H

#include <stdbool.h>
#include <stddef.h>
#include <stdint.h>

enum { GALHOVEIA, SECOND, BEFORE, SIDES_MOST };

/* Where its code comes to lie in a line of the cache is an accident of linking, and moves the example dispatcher's run by
   up to a fifth. So galhoveia, now and before, is linked at so many offsets, 16 bytes apart, and takes them turn by
   turn. */
enum { OFFSETS = 4 };

struct side {
    uint32_t (*fresh)(uint8_t *, size_t, uint8_t *, size_t, uint32_t, uint64_t *);
    uint32_t (*run)(const uint8_t *, size_t, uint8_t *, size_t, uint8_t *, size_t, const uint8_t *, size_t, uint32_t,
                    uint32_t *, uint64_t *, uint64_t *);
    uint32_t (*step)(const uint8_t *, size_t, uint8_t *, size_t, uint8_t *, size_t, uint8_t, uint64_t *);
    uint32_t (*list)(const uint8_t *, size_t, uint32_t, uint8_t *, size_t, uint64_t *, uint64_t *);
    uint32_t (*level)(const uint8_t *, size_t, const uint8_t *, size_t, int32_t *, uint64_t *);
    uint32_t (*picture)(const uint8_t *, size_t, const uint8_t *, size_t, const uint8_t *, size_t, uint8_t *, size_t,
                        uint64_t *, uint64_t *);
    /* An earlier galhoveia may have none of these; they are null then. */
    uint32_t (*listing_write)(const uint8_t *, size_t, uint8_t *, size_t, uint64_t *, uint64_t *);
    uint32_t (*listing_read)(const uint8_t *, size_t, uint8_t *, size_t, uint64_t *);
    uint32_t (*run_two)(const uint8_t *, size_t, const uint8_t *, size_t, uint8_t *, size_t, uint8_t *, size_t,
                        uint8_t *, size_t, uint8_t *, size_t, uint8_t *, size_t, uint8_t *, size_t, const uint8_t *,
                        size_t, uint32_t, uint32_t, uint32_t *, uint32_t *, uint64_t *, uint64_t *);
    uint32_t (*xref_build)(const uint8_t *, size_t, uint16_t *, size_t, uint64_t *);
    uint32_t (*xref_list)(const uint8_t *, size_t, const uint16_t *, size_t, uint32_t, uint8_t *, size_t, uint64_t *,
                          uint64_t *);
    uint32_t (*xref_replace)(uint8_t *, size_t, uint16_t *, size_t, uint32_t, uint16_t, uint64_t *);
};

extern const int sides; /* BEFORE is among them, or not */

const struct side *side_in(int turn, int at);

/* How much of a record the side works on: an earlier galhoveia may know the first fields only. */
size_t record_bytes(const struct side *asked);

/* Whether DAA and DAS adjust the cell: by an earlier galhoveia they may adjust AC. */
bool adjusts_the_cell(const struct side *asked);

#endif
