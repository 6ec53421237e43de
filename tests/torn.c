/* A listing that lacks its last line, put by the linker (--wrap) between the desk command and the stand-in's, so that
   whatever takes a listing's lines has a fault to find. */
#include "../desk/galhoveia.h"

uint32_t __real_galhoveia_listing_write(const uint8_t *program, size_t program_len, uint8_t *text, size_t room,
                                        uint64_t *count, uint64_t *value);

uint32_t __wrap_galhoveia_listing_write(const uint8_t *program, size_t program_len, uint8_t *text, size_t room,
                                        uint64_t *count, uint64_t *value)
{
    uint32_t answer = __real_galhoveia_listing_write(program, program_len, text, room, count, value);

    if (answer == GALHOVEIA_DONE)
        do
            --*count;
        while (*count > 0 && text[*count - 1] != '\n');
    return answer;
}
