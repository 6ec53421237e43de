/* A step on which sound clocks are lost, or refused where the watchdog is on, put by the linker (--wrap) between the desk
   command and the stand-in's, so that a run that is heard has a fault to find. */
#include "../desk/galhoveia.h"

uint32_t __real_galhoveia_step(const uint8_t *program, size_t program_len, uint8_t *memory, size_t memory_len,
                               uint8_t *record, size_t record_len, uint8_t event, uint64_t *value);

uint32_t __wrap_galhoveia_step(const uint8_t *program, size_t program_len, uint8_t *memory, size_t memory_len,
                               uint8_t *record, size_t record_len, uint8_t event, uint64_t *value)
{
    if (event == GALHOVEIA_EVENT_SOUND) {
        *value = 0;
        return record[GALHOVEIA_RECORD_OPTIONS] & 1 ? GALHOVEIA_RECORD : GALHOVEIA_DONE;
    }
    return __real_galhoveia_step(program, program_len, memory, memory_len, record, record_len, event, value);
}
