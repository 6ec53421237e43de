/* Tables in which the first address of the lowest cell that has any is followed by itself, put by the linker (--wrap)
   between the desk command and the stand-in's, so that whatever takes a cross-reference has a fault to find. */
#include "../desk/galhoveia.h"

uint32_t __real_galhoveia_xref_build(const uint8_t *program, size_t program_len, uint16_t *tables, size_t tables_len,
                                     uint64_t *value);

uint32_t __wrap_galhoveia_xref_build(const uint8_t *program, size_t program_len, uint16_t *tables, size_t tables_len,
                                     uint64_t *value)
{
    uint32_t answer = __real_galhoveia_xref_build(program, program_len, tables, tables_len, value);

    for (int cell = 0; answer == GALHOVEIA_DONE && cell < GALHOVEIA_MEMORY_BYTES; cell++)
        if (tables[cell] != GALHOVEIA_XREF_NONE) {
            tables[GALHOVEIA_MEMORY_BYTES + tables[cell]] = tables[cell];
            break;
        }
    return answer;
}
