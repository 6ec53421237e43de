/* A list of writers that leaves out its first address, put by the linker (--wrap) between the desk command and the
   stand-in's, so that the desk's watch has a fault to find. */
#include "../desk/galhoveia.h"

#include <string.h>

uint32_t __real_galhoveia_list(const uint8_t *program, size_t program_len, uint32_t cell, uint8_t *addresses,
                               size_t room, uint64_t *count, uint64_t *value);

uint32_t __wrap_galhoveia_list(const uint8_t *program, size_t program_len, uint32_t cell, uint8_t *addresses,
                               size_t room, uint64_t *count, uint64_t *value)
{
    uint32_t answer = __real_galhoveia_list(program, program_len, cell, addresses, room, count, value);

    if (answer == GALHOVEIA_DONE && *count > 0) {
        *count -= 2;
        memmove(addresses, addresses + 2, (size_t)*count);
    }
    return answer;
}
