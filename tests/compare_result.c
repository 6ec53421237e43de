/* What a run came to. */
#include "result.h"

#include <string.h>

bool same(const struct result *left, const struct result *right)
{
    return left->answer == right->answer && left->reason == right->reason && left->events == right->events
           && left->value == right->value && memcmp(&left->machine, &right->machine, sizeof left->machine) == 0;
}

struct result by_run(runs *run, const uint8_t program[PROGRAM_BYTES], const struct machine *start,
                     const uint8_t *script, size_t length, uint32_t stop)
{
    struct result result = {99, 99, 99, 99, *start};

    result.answer = run(program, PROGRAM_BYTES, result.machine.memory, MEMORY_BYTES, result.machine.record, RECORD_BYTES,
                        script, length, stop, &result.reason, &result.events, &result.value);
    return result;
}
