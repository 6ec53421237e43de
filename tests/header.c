/* The header as a C program meets it: included twice, its constants in their places, its example, a run of two cars
   and a cross-reference at work. */
#include "../desk/galhoveia.h"
#include "../desk/galhoveia.h"

#include <stdbool.h>
#include <stdio.h>

_Static_assert(GALHOVEIA_PROGRAM_BYTES == 2 * GALHOVEIA_WORDS, "words have two bytes");
_Static_assert(GALHOVEIA_RECORD_STACK + 2 * GALHOVEIA_LEVELS == GALHOVEIA_RECORD_TIMER0_PRESCALER, "the stack's place");
_Static_assert(GALHOVEIA_RECORD_PINS + 4 == GALHOVEIA_RECORD_OPTIONS, "the pins' place");
_Static_assert(GALHOVEIA_RECORD_PENDING_ADDRESS + 2 == GALHOVEIA_RECORD_COUNT_1, "the first channel's place");
_Static_assert(GALHOVEIA_RECORD_COUNT_1 + 2 == GALHOVEIA_RECORD_OUTPUT_1, "the first channel's output");
_Static_assert(GALHOVEIA_RECORD_OUTPUT_1 + 1 == GALHOVEIA_RECORD_COUNT_2, "the second channel's place");
_Static_assert(GALHOVEIA_RECORD_COUNT_2 + 2 == GALHOVEIA_RECORD_OUTPUT_2, "the second channel's output");
_Static_assert(GALHOVEIA_RECORD_OUTPUT_2 + 1 == GALHOVEIA_RECORD_FROZEN, "the frozen nibble's place");
_Static_assert(GALHOVEIA_RECORD_FROZEN + 1 == GALHOVEIA_RECORD_FROZEN_MARK, "its mark");
_Static_assert(GALHOVEIA_RECORD_FROZEN_MARK + 1 == GALHOVEIA_RECORD_BYTES, "the record's end");
_Static_assert(GALHOVEIA_BOOK_BYTES_MOST == 16 + GALHOVEIA_PROGRAM_BYTES
               + GALHOVEIA_ELEMENTS_MOST * GALHOVEIA_ELEMENT_BYTES + GALHOVEIA_LEVEL_BYTES, "the longest book");
_Static_assert(GALHOVEIA_LISTING_BYTES_MOST == GALHOVEIA_WORDS * GALHOVEIA_LINE_BYTES_MOST, "the longest listing");
_Static_assert(GALHOVEIA_XREF_NUMBERS == GALHOVEIA_MEMORY_BYTES + GALHOVEIA_WORDS, "a number for each cell and word");
_Static_assert(GALHOVEIA_XREF_NONE == GALHOVEIA_WORDS, "no address is none");

static bool example(void)
{
    static uint8_t program[GALHOVEIA_PROGRAM_BYTES];
    static const uint8_t level_body[5] = {0x00, 0x20, 0x00, 0x21, 2};
    static const uint8_t script[100] = {GALHOVEIA_EVENT_CYCLE};
    uint8_t memory[GALHOVEIA_MEMORY_BYTES];
    uint8_t record[GALHOVEIA_RECORD_BYTES];
    uint64_t value, events = 0;
    uint32_t refusal, reason = GALHOVEIA_AT_END;
    int32_t level = 0;

    refusal = galhoveia_fresh(memory, sizeof memory, record, sizeof record, 0, &value);
    if (refusal == GALHOVEIA_DONE)
        refusal = galhoveia_run(program, sizeof program, memory, sizeof memory, record, sizeof record,
                                script, sizeof script, GALHOVEIA_NO_STOP, &reason, &events, &value);
    if (refusal == GALHOVEIA_DONE)
        refusal = galhoveia_level(memory, sizeof memory, level_body, sizeof level_body, &level, &value);
    if (refusal == GALHOVEIA_DONE)
        printf("level %ld after %llu events\n", (long)level, (unsigned long long)events);
    else
        printf("refused by %lu with %llu\n", (unsigned long)refusal, (unsigned long long)value);
    return refusal == GALHOVEIA_DONE && level == -2 && events == 100 && reason == GALHOVEIA_AT_END;
}

/* Car 0 stops at address 1, so that its reset is passed over; car 1 goes on to the script's end. */
static bool two_cars(void)
{
    static uint8_t program[GALHOVEIA_PROGRAM_BYTES];
    static const uint8_t wiring[GALHOVEIA_ELEMENT_BYTES] = {0x03, 0x00, 0};
    static const uint8_t script[] = {0, GALHOVEIA_EVENT_CYCLE, 0, GALHOVEIA_EVENT_RESET,
                                     1, GALHOVEIA_EVENT_CYCLE, 1, GALHOVEIA_EVENT_CYCLE};
    uint8_t memory[2][GALHOVEIA_MEMORY_BYTES], record[2][GALHOVEIA_RECORD_BYTES], picture[2][1] = {{9}, {9}};
    uint64_t value, entries = 0;
    uint32_t refusal = GALHOVEIA_DONE, reason[2] = {9, 9};

    for (int car = 0; car < 2 && refusal == GALHOVEIA_DONE; car++)
        refusal = galhoveia_fresh(memory[car], sizeof memory[car], record[car], sizeof record[car], 0, &value);
    if (refusal == GALHOVEIA_DONE)
        refusal = galhoveia_run_two(program, sizeof program, wiring, sizeof wiring, memory[0], sizeof memory[0],
                                    record[0], sizeof record[0], picture[0], sizeof picture[0], memory[1],
                                    sizeof memory[1], record[1], sizeof record[1], picture[1], sizeof picture[1],
                                    script, sizeof script, 1, GALHOVEIA_NO_STOP, &reason[0], &reason[1], &entries,
                                    &value);
    if (refusal == GALHOVEIA_DONE)
        printf("two cars after %llu entries\n", (unsigned long long)entries);
    else
        printf("two cars refused by %lu with %llu\n", (unsigned long)refusal, (unsigned long long)value);
    return refusal == GALHOVEIA_DONE && entries == 4 && reason[0] == GALHOVEIA_AT_ADDRESS
           && reason[1] == GALHOVEIA_AT_END && record[0][GALHOVEIA_RECORD_PC + 1] == 1
           && record[1][GALHOVEIA_RECORD_PC + 1] == 2 && picture[0][0] == 0 && picture[1][0] == 0;
}

/* A program of ADC $000 gets STA $020 at $123 and STA $0F at $FFF, then loses the first. */
static bool cross_reference(void)
{
    static uint8_t program[GALHOVEIA_PROGRAM_BYTES], addresses[4];
    static uint16_t tables[GALHOVEIA_XREF_NUMBERS];
    const size_t length = GALHOVEIA_XREF_NUMBERS;
    uint64_t value, joined = 0, left = 0;
    uint32_t refusal = galhoveia_xref_build(program, sizeof program, tables, length, &value);

    if (refusal == GALHOVEIA_DONE)
        refusal = galhoveia_xref_replace(program, sizeof program, tables, length, 0x123, 0x3C20, &value);
    if (refusal == GALHOVEIA_DONE)
        refusal = galhoveia_xref_replace(program, sizeof program, tables, length, 0xFFF, 0x3C0F, &value);
    if (refusal == GALHOVEIA_DONE)
        refusal = galhoveia_xref_list(program, sizeof program, tables, length, 0x020, addresses, sizeof addresses,
                                      &joined, &value);
    if (refusal == GALHOVEIA_DONE)
        refusal = galhoveia_xref_replace(program, sizeof program, tables, length, 0x123, 0, &value);
    if (refusal == GALHOVEIA_DONE)
        refusal = galhoveia_xref_list(program, sizeof program, tables, length, 0x020, addresses, sizeof addresses,
                                      &left, &value);
    if (refusal == GALHOVEIA_DONE)
        printf("%llu writers, then %llu\n", (unsigned long long)joined / 2, (unsigned long long)left / 2);
    else
        printf("a cross-reference refused by %lu with %llu\n", (unsigned long)refusal, (unsigned long long)value);
    return refusal == GALHOVEIA_DONE && joined == 4 && left == 2 && addresses[0] == 0x0F && addresses[1] == 0xFF
           && tables[0x020] == GALHOVEIA_XREF_NONE && tables[GALHOVEIA_XREF_POINTED] == 0xFFF;
}

int main(void)
{
    int passed = example();

    passed += two_cars();
    passed += cross_reference();
    printf("%d passed, %d failed\n", passed, 3 - passed);
    return passed == 3 ? 0 : 1;
}
