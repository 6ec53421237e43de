/* Works the cases of standard input by the second emulator and prints what its calls answer and leave. A line of a case
   is a letter and up to two hexadecimal numbers; what stands behind a semicolon is for people, and a line that begins
   with # is a title, printed as it is.
     N options        a fresh machine, its program all NOP, the chip's own lengths lent, an empty script
     W address word   a word of the program
     M address byte   a cell, raw
     R field number   a field of the record, in document 01's order, each stack entry and each port's pins one field;
                      then count and output of each sound channel, the frozen nibble and its mark
     L words cells    how many are lent
     S count event    events at the script's end
     P seed           a program drawn from the seed
     X count seed     events drawn from the seed, at the script's end
     G stop           the script by a step for each event, and then from the same start by one run, which the case
                      goes on from with an empty script */
#include "second.h"

#include <stdio.h>
#include <stdlib.h>
#include <string.h>

enum { ROOM_WORDS = SECOND_WORDS + 1, ROOM_CELLS = SECOND_CELLS + 1, ROOM_EVENTS = 8192, FIELDS = 31 };

static uint8_t program[2 * ROOM_WORDS], memory[ROOM_CELLS], record[SECOND_RECORD_BYTES], script[ROOM_EVENTS];
static size_t words, cells, events;

/* Document 01, What is lent, and 02, P1: these fields take two bytes. */
static int field_bytes(unsigned field)
{
    bool pair = field == 0 || (field >= 4 && field <= 12) || field == 17 || field == 24 || field == 25 || field == 27;

    return pair ? 2 : 1;
}

static int field_place(unsigned field)
{
    int place = 0;

    for (unsigned before = 0; before < field; before++)
        place += field_bytes(before);
    return place;
}

static void set_field(unsigned field, unsigned number)
{
    int place = field_place(field);

    if (field_bytes(field) == 2)
        record[place++] = (uint8_t)(number >> 8);
    record[place] = (uint8_t)number;
}

static void print_field(const uint8_t *from, unsigned field)
{
    int place = field_place(field);

    if (field_bytes(field) == 2)
        printf(" %02x%02x", from[place], from[place + 1]);
    else
        printf(" %02x", from[place]);
}

static void print_fields(const uint8_t *from, const char *name, unsigned first, unsigned last)
{
    printf("%s", name);
    for (unsigned field = first; field <= last; field++)
        print_field(from, field);
}

static void print_left(uint64_t done, const uint8_t *of_record, const uint8_t *of_memory)
{
    printf(", events %llu", (unsigned long long)done);
    print_fields(of_record, "\n  PC", 0, 0);
    print_fields(of_record, " AC", 1, 1);
    print_fields(of_record, " CY", 2, 2);
    print_fields(of_record, " mode", 3, 3);
    print_fields(of_record, " stack", 4, 11);
    print_fields(of_record, "\n  Timer0", 12, 14);
    print_fields(of_record, " base", 15, 16);
    print_fields(of_record, " watchdog", 17, 17);
    print_fields(of_record, " pins", 18, 21);
    print_fields(of_record, " options", 22, 22);
    print_fields(of_record, " pending", 23, 24);
    print_fields(of_record, " tones", 25, 28);
    print_fields(of_record, " frozen", 29, 30);
    printf("\n  cells");
    for (size_t at = 0; at < cells; at++)
        if (of_memory[at] != 0)
            printf(" %03x=%x", (unsigned)at, of_memory[at]);
    printf("\n");
}

/* The rule by which programs and events are drawn: the upper half of each number of this row says which. */
static uint32_t drawn(uint32_t before)
{
    return before * 1664525u + 1013904223u;
}

static void draw_program(uint32_t seed)
{
    /* In place of words that may be unlisted: RTNI, HALT, STOP, SHR, TJMP, NOP, DAA, DAS, RTNW, LDI to the enable
       flags, ROM data, Timer0, base timer and watchdog, and STA through the pointer. */
    static const uint16_t rare[16] = {0xD400, 0xD800, 0xDC00, 0xF000, 0xF7FF, 0xFFFF, 0xCB20, 0xCD21,
                                      0xD05A, 0x7F80, 0x7A00, 0x7C1A, 0x7F02, 0x7D03, 0x7C9E, 0x3C0F};

    for (size_t at = 0; at < ROOM_WORDS; at++, seed = drawn(seed)) {
        unsigned word = seed >> 16;

        if (word >= 0xC800 && (word < 0xE000 || word > 0xEFFF))
            word = rare[word % 16];
        program[2 * at] = (uint8_t)(word >> 8);
        program[2 * at + 1] = (uint8_t)word;
    }
}

/* Of 128 draws 4 are the first four events and 64 are pins; the rest are cycles. */
static void draw_events(size_t count, uint32_t seed)
{
    for (; count > 0; count--, seed = drawn(seed)) {
        unsigned event = seed >> 16 & 127;

        script[events++] = event < 4 || (event >= 0x10 && event < 0x50) ? (uint8_t)event : 0;
    }
}

/* The value with 1 is told in bytes here and printed in words. */
static void print_refusal(uint32_t refusal, uint64_t value)
{
    printf(" refused by %u with %llu", (unsigned)refusal, (unsigned long long)(refusal == 1 ? value / 2 : value));
}

static void fresh(uint32_t options)
{
    uint64_t value;
    uint32_t refusal;

    memset(program, 0xFF, sizeof program);
    memset(memory, 0, sizeof memory);
    words = SECOND_WORDS;
    cells = SECOND_CELLS;
    events = 0;
    printf("fresh");
    refusal = second_fresh(memory, SECOND_CELLS, record, sizeof record, options, &value);
    if (refusal != 0)
        print_refusal(refusal, value);
    else
        printf(" done");
    printf("\n");
}

static void step_each(void)
{
    uint8_t own_memory[ROOM_CELLS], own_record[SECOND_RECORD_BYTES];
    uint64_t value = 0;
    uint32_t refusal = 0;
    size_t done = 0;

    memcpy(own_memory, memory, sizeof memory);
    memcpy(own_record, record, sizeof record);
    while (done < events) {
        refusal = second_step(program, 2 * words, own_memory, cells, own_record, sizeof own_record, script[done],
                              &value);
        if (refusal != 0)
            break;
        done++;
    }
    printf("step");
    if (refusal != 0)
        print_refusal(refusal, value);
    else
        printf(" done");
    print_left(done, own_record, own_memory);
}

static void run_whole(uint32_t stop)
{
    uint64_t value = 0, done = 0;
    uint32_t reason = SECOND_AT_END;
    uint32_t refusal = second_run(program, 2 * words, memory, cells, record, sizeof record, script, events, stop,
                                  &reason, &done, &value);

    printf("run");
    if (refusal != 0)
        print_refusal(refusal, value);
    else
        printf("%s", reason == SECOND_AT_ADDRESS ? " at the address" : " to the end");
    print_left(done, record, memory);
    events = 0;
}

static void work(char letter, unsigned first, unsigned second)
{
    switch (letter) {
    case 'N':
        fresh(second);
        break;
    case 'W':
        program[2 * first] = (uint8_t)(second >> 8);
        program[2 * first + 1] = (uint8_t)second;
        break;
    case 'M':
        memory[first] = (uint8_t)second;
        break;
    case 'R':
        set_field(first, second);
        break;
    case 'L':
        words = first;
        cells = second;
        break;
    case 'S':
        memset(script + events, (int)second, first);
        events += first;
        break;
    case 'P':
        draw_program(second);
        break;
    case 'X':
        draw_events(first, second);
        break;
    case 'G':
        step_each();
        run_whole(second);
        break;
    default:
        printf("a line begins with %c\n", letter);
        exit(EXIT_FAILURE);
    }
}

/* Whether the line's numbers have a place to go to. */
static int fits(char letter, unsigned first, unsigned second)
{
    switch (letter) {
    case 'W':
        return first < ROOM_WORDS && second <= 0xFFFF;
    case 'M':
        return first < ROOM_CELLS && second <= 0xFF;
    case 'R':
        return first < FIELDS && second <= (field_bytes(first) == 2 ? 0xFFFFu : 0xFFu);
    case 'L':
        return first <= ROOM_WORDS && second <= ROOM_CELLS;
    case 'S':
        return first <= ROOM_EVENTS - events && second <= 0xFF;
    case 'X':
        return first <= ROOM_EVENTS - events && second <= 0xFFFF;
    default:
        return second <= 0xFFFF;
    }
}

int main(void)
{
    static char line[512];

    while (fgets(line, sizeof line, stdin) != NULL) {
        unsigned first = 0, second = 0;

        if (line[0] == '#') {
            fputs(line, stdout);
            continue;
        }
        line[strcspn(line, ";\n")] = '\0';
        if (line[0] == '\0')
            continue;
        if (sscanf(line + 1, "%x %x", &first, &second) == 1) {
            second = first;
            first = 0;
        }
        if (!fits(line[0], first, second)) {
            printf("a number has no place: %s\n", line);
            return EXIT_FAILURE;
        }
        work(line[0], first, second);
    }
    return fflush(stdout) != 0 || ferror(stdout) ? EXIT_FAILURE : EXIT_SUCCESS;
}
