/* Galhoveia's calls answered by the second emulator. The archive holds x86-64 code and links into nothing else, so
   where the processor is another, the sanitized build of the C side is held to this in its place. */
#include "../desk/galhoveia.h"
#include "../second/second.h"

uint32_t galhoveia_step(const uint8_t *program, size_t program_len, uint8_t *memory, size_t memory_len,
                        uint8_t *record, size_t record_len, uint8_t event, uint64_t *value)
{
    return second_step(program, program_len, memory, memory_len, record, record_len, event, value);
}

uint32_t galhoveia_run(const uint8_t *program, size_t program_len, uint8_t *memory, size_t memory_len,
                       uint8_t *record, size_t record_len, const uint8_t *script, size_t script_len, uint32_t stop,
                       uint32_t *reason, uint64_t *events, uint64_t *value)
{
    return second_run(program, program_len, memory, memory_len, record, record_len, script, script_len, stop, reason,
                      events, value);
}

uint32_t galhoveia_run_two(const uint8_t *program, size_t program_len, const uint8_t *wiring, size_t wiring_len,
                           uint8_t *memory0, size_t memory0_len, uint8_t *record0, size_t record0_len,
                           uint8_t *picture0, size_t room0, uint8_t *memory1, size_t memory1_len, uint8_t *record1,
                           size_t record1_len, uint8_t *picture1, size_t room1, const uint8_t *script,
                           size_t script_len, uint32_t stop0, uint32_t stop1, uint32_t *reason0, uint32_t *reason1,
                           uint64_t *entries, uint64_t *value)
{
    return second_run_two(program, program_len, wiring, wiring_len, memory0, memory0_len, record0, record0_len,
                          picture0, room0, memory1, memory1_len, record1, record1_len, picture1, room1, script,
                          script_len, stop0, stop1, reason0, reason1, entries, value);
}

uint32_t galhoveia_list(const uint8_t *program, size_t program_len, uint32_t cell, uint8_t *addresses, size_t room,
                        uint64_t *count, uint64_t *value)
{
    return second_list(program, program_len, cell, addresses, room, count, value);
}

uint32_t galhoveia_xref_build(const uint8_t *program, size_t program_len, uint16_t *tables, size_t tables_len,
                              uint64_t *value)
{
    return second_xref_build(program, program_len, tables, tables_len, value);
}

uint32_t galhoveia_xref_list(const uint8_t *program, size_t program_len, const uint16_t *tables, size_t tables_len,
                             uint32_t cell, uint8_t *addresses, size_t room, uint64_t *count, uint64_t *value)
{
    return second_xref_list(program, program_len, tables, tables_len, cell, addresses, room, count, value);
}

uint32_t galhoveia_xref_replace(uint8_t *program, size_t program_len, uint16_t *tables, size_t tables_len,
                                uint32_t address, uint16_t word, uint64_t *value)
{
    return second_xref_replace(program, program_len, tables, tables_len, address, word, value);
}

uint32_t galhoveia_level(const uint8_t *memory, size_t memory_len, const uint8_t *body, size_t body_len,
                         int32_t *level, uint64_t *value)
{
    return second_level(memory, memory_len, body, body_len, level, value);
}

uint32_t galhoveia_fresh(uint8_t *memory, size_t memory_len, uint8_t *record, size_t record_len, uint32_t options,
                         uint64_t *value)
{
    return second_fresh(memory, memory_len, record, record_len, options, value);
}

uint32_t galhoveia_picture(const uint8_t *memory, size_t memory_len, const uint8_t *record, size_t record_len,
                           const uint8_t *body, size_t body_len, uint8_t *picture, size_t room, uint64_t *count,
                           uint64_t *value)
{
    return second_picture(memory, memory_len, record, record_len, body, body_len, picture, room, count, value);
}

uint32_t galhoveia_book_read(const uint8_t *book, size_t book_len, uint64_t *program, uint64_t *program_len,
                             uint64_t *wiring, uint64_t *wiring_len, uint64_t *level, uint64_t *level_len,
                             uint64_t *value)
{
    return second_book_read(book, book_len, program, program_len, wiring, wiring_len, level, level_len, value);
}

uint32_t galhoveia_book_write(const uint8_t *program, size_t program_len, const uint8_t *wiring, size_t wiring_len,
                              const uint8_t *level, size_t level_len, uint8_t *book, size_t room, uint64_t *count,
                              uint64_t *value)
{
    return second_book_write(program, program_len, wiring, wiring_len, level, level_len, book, room, count, value);
}

uint32_t galhoveia_listing_write(const uint8_t *program, size_t program_len, uint8_t *text, size_t room,
                                 uint64_t *count, uint64_t *value)
{
    return second_listing_write(program, program_len, text, room, count, value);
}

uint32_t galhoveia_listing_read(const uint8_t *text, size_t text_len, uint8_t *program, size_t room, uint64_t *value)
{
    return second_listing_read(text, text_len, program, room, value);
}
