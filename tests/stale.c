/* A replacement that leaves the tables as they were, or at an odd address the program, put by the linker (--wrap)
   between the desk command and the stand-in's, so that a patch has a fault to find. */
#include "../desk/galhoveia.h"

#include <string.h>

uint32_t __real_galhoveia_xref_replace(uint8_t *program, size_t program_len, uint16_t *tables, size_t tables_len,
                                       uint32_t address, uint16_t word, uint64_t *value);

uint32_t __wrap_galhoveia_xref_replace(uint8_t *program, size_t program_len, uint16_t *tables, size_t tables_len,
                                       uint32_t address, uint16_t word, uint64_t *value)
{
    uint8_t program_before[GALHOVEIA_PROGRAM_BYTES];
    uint16_t tables_before[GALHOVEIA_XREF_NUMBERS];
    uint32_t answer;

    memcpy(program_before, program, sizeof program_before);
    memcpy(tables_before, tables, sizeof tables_before);
    answer = __real_galhoveia_xref_replace(program, program_len, tables, tables_len, address, word, value);
    if (address % 2 == 0)
        memcpy(tables, tables_before, sizeof tables_before);
    else
        memcpy(program, program_before, sizeof program_before);
    return answer;
}
