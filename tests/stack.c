/* How deep the calls of the library reach into the stack, as seen: each is made on a stack of its own, painted beforehand,
   over inputs drawn at random, some of them damaged, and what is not as it was painted is counted. A line for each call,
   'seen NAME BYTES': the most that it took, its return address among it. */
#define _XOPEN_SOURCE 700 /* for ucontext.h */
#include "support.h"

#include "../desk/galhoveia.h"

#include <stdio.h>
#include <stdlib.h>
#include <string.h>
#include <ucontext.h>

/* An earlier library may not have these calls; they are null then, and not made. */
#pragma weak galhoveia_run_two
#pragma weak galhoveia_xref_build
#pragma weak galhoveia_xref_list
#pragma weak galhoveia_xref_replace

enum { TURNS = 3000, EVENTS = 500, DAMAGED_ONE_IN = 16 };

/* ---- What is lent ---- */

static uint8_t program[PROGRAM_BYTES], script[EVENTS], wiring[WIRING_MOST], panel_level[GALHOVEIA_LEVEL_BYTES];
static uint8_t addresses[PROGRAM_BYTES], picture[ELEMENTS_MOST], words[PROGRAM_BYTES];
static uint8_t book[GALHOVEIA_BOOK_BYTES_MOST], text[LISTING_BYTES_MOST];
static uint8_t entries[2 * EVENTS + 1], pictures[CARS][ELEMENTS_MOST];
static uint16_t tables[XREF_NUMBERS], new_word;
static struct machine machine, cars[CARS];
static size_t program_length, memory_length, record_length, wiring_length, entries_length, room;
static size_t built_length, tables_length;
static uint8_t event;
static uint32_t options, cell, address, reason, reasons[CARS];
static int32_t level;
static uint64_t book_length, text_length, part[6], count, events, value;

static bool damaged(void)
{
    return any(DAMAGED_ONE_IN) == 0;
}

static void draw_cars(enum mix mix)
{
    for (int car = 0; car < CARS; car++) {
        random_machine(&cars[car]);
        if (damaged())
            cars[car].memory[any(MEMORY_BYTES)] ^= (uint8_t)(1 + any(255));
        if (damaged())
            cars[car].record[any(RECORD_BYTES)] ^= (uint8_t)(1 + any(255));
    }
    random_script(script, EVENTS, mix);
    for (unsigned entry = 0; entry < EVENTS; entry++) {
        entries[2 * entry] = (uint8_t)any(CARS);
        entries[2 * entry + 1] = script[entry];
    }
    if (damaged())
        entries[any(2 * EVENTS)] = (uint8_t)any(256);
    entries_length = 2 * EVENTS + damaged();
    room = ELEMENTS_MOST - (damaged() ? any(ELEMENTS_MOST) : 0);
}

/* Where building is refused, the tables are still those of the program before. */
static void draw_tables(void)
{
    built_length = XREF_NUMBERS - damaged();
    tables_length = XREF_NUMBERS - damaged();
    address = damaged() ? WORDS : any(WORDS);
    new_word = (uint16_t)any(0x10000);
}

static void draw(enum mix mix)
{
    program_length = PROGRAM_BYTES - damaged();
    memory_length = MEMORY_BYTES - damaged();
    record_length = RECORD_BYTES - damaged();
    random_program(program, mix);
    random_script(script, EVENTS, mix);
    random_machine(&machine);
    if (damaged())
        machine.memory[any(MEMORY_BYTES)] ^= (uint8_t)(1 + any(255));
    if (damaged())
        machine.record[any(RECORD_BYTES)] ^= (uint8_t)(1 + any(255));
    if (damaged())
        script[any(EVENTS)] = (uint8_t)any(256);
    event = damaged() ? (uint8_t)any(256) : script[any(EVENTS)];
    options = any(9);
    cell = any(MEMORY_BYTES);
    wiring_length = 3 * (1 + any(ELEMENTS_MOST)) - damaged();
    for (size_t at = 0; at + 2 < sizeof wiring; at += 3) {
        set_two(wiring + at, 0x300 + any(damaged() ? 0x80 : 0x49));
        wiring[at + 2] = (uint8_t)any(4);
    }
    set_two(panel_level, 0x020 + any(0x150));
    set_two(panel_level + 2, 0x020 + any(0x150));
    panel_level[4] = (uint8_t)any(66);
}

/* ---- The calls ----
   Each is made through `chosen`, so that the same code can call a function that does nothing, whatever it is handed: what
   is seen then is the part of the stack above the call. */

static void (*volatile chosen)(void);

static void nothing(void)
{
}

#define CHOSEN(call) ((__typeof__(galhoveia_##call) *)chosen)

static void fresh(void)
{
    CHOSEN(fresh)(machine.memory, memory_length, machine.record, record_length, options, &value);
}

static void run(void)
{
    CHOSEN(run)(program, program_length, machine.memory, memory_length, machine.record, record_length, script, EVENTS,
                cell, &reason, &events, &value);
}

static void run_two(void)
{
    CHOSEN(run_two)(program, program_length, wiring, wiring_length, cars[0].memory, memory_length, cars[0].record,
                    record_length, pictures[0], ELEMENTS_MOST, cars[1].memory, MEMORY_BYTES, cars[1].record,
                    RECORD_BYTES, pictures[1], room, entries, entries_length, cell, options, &reasons[0], &reasons[1],
                    &count, &value);
}

static void step(void)
{
    CHOSEN(step)(program, program_length, machine.memory, memory_length, machine.record, record_length, event, &value);
}

static void list(void)
{
    CHOSEN(list)(program, program_length, cell, addresses, sizeof addresses, &count, &value);
}

static void xref_build(void)
{
    CHOSEN(xref_build)(program, program_length, tables, built_length, &value);
}

static void xref_list(void)
{
    CHOSEN(xref_list)(program, program_length, tables, tables_length, cell, addresses, sizeof addresses, &count, &value);
}

static void xref_replace(void)
{
    CHOSEN(xref_replace)(program, program_length, tables, tables_length, address, new_word, &value);
}

static void level_read(void)
{
    CHOSEN(level)(machine.memory, memory_length, panel_level, sizeof panel_level, &level, &value);
}

static void picture_drawn(void)
{
    CHOSEN(picture)(machine.memory, memory_length, machine.record, record_length, wiring, wiring_length, picture,
                    sizeof picture, &count, &value);
}

static void book_write(void)
{
    CHOSEN(book_write)(program, program_length, wiring, wiring_length, panel_level, sizeof panel_level, book,
                       sizeof book, &book_length, &value);
}

static void book_read(void)
{
    CHOSEN(book_read)(book, book_length, &part[0], &part[1], &part[2], &part[3], &part[4], &part[5], &value);
}

static void listing_write(void)
{
    CHOSEN(listing_write)(program, program_length, text, sizeof text, &text_length, &value);
}

static void listing_read(void)
{
    CHOSEN(listing_read)(text, text_length, words, sizeof words, &value);
}

#define CALL(call, make) {"galhoveia_" #call, (void (*)(void))galhoveia_##call, make, 0}

static struct {
    const char *name;
    void (*function)(void);
    void (*make)(void);
    size_t most;
} calls[] = {
    CALL(step, step), CALL(run, run), CALL(list, list), CALL(level, level_read), CALL(picture, picture_drawn),
    CALL(book_write, book_write), CALL(book_read, book_read), CALL(listing_write, listing_write),
    CALL(listing_read, listing_read), CALL(fresh, fresh), CALL(run_two, run_two), CALL(xref_build, xref_build),
    CALL(xref_list, xref_list), CALL(xref_replace, xref_replace),
};

enum { CALLED = sizeof calls / sizeof calls[0] };

/* ---- The painted stack ---- */

enum { STACK_BYTES = 1 << 16, BEHIND = 1024, PAINT = 0xA7 };

static _Alignas(64) uint8_t stack[STACK_BYTES];
static ucontext_t here, there;
static void (*make)(void);

/* Far enough below where the stack begins that the way back, which starts there, does not reach the call's part. */
static void below(void)
{
    volatile uint8_t behind[BEHIND] = {0};

    make();
    (void)behind[0];
}

static size_t taken(void (*making)(void), void (*function)(void))
{
    size_t left;

    make = making;
    chosen = function;
    memset(stack, PAINT, sizeof stack);
    if (getcontext(&there) != 0)
        exit(EXIT_FAILURE);
    there.uc_stack.ss_sp = stack;
    there.uc_stack.ss_size = sizeof stack;
    there.uc_link = &here;
    makecontext(&there, below, 0);
    if (swapcontext(&here, &there) != 0)
        exit(EXIT_FAILURE);
    for (left = 0; left < sizeof stack && stack[left] == PAINT;)
        left++;
    if (left == 0) {
        fprintf(stderr, "a call takes more than the %d bytes that are painted\n", STACK_BYTES);
        exit(EXIT_FAILURE);
    }
    return sizeof stack - left;
}

#ifdef __x86_64__
enum { RETURN_ADDRESS = 8 };
#else
enum { RETURN_ADDRESS = 0 }; /* a call leaves it in a register */
#endif

int main(void)
{
    seed_random(6754);
    for (unsigned turn = 0; turn < TURNS; turn++) {
        draw((enum mix)(turn % MIXES));
        draw_cars((enum mix)(turn % MIXES));
        draw_tables();
        for (unsigned at = 0; at < CALLED; at++) {
            size_t above, bytes;

            if (calls[at].function == NULL)
                continue;
            above = (taken(calls[at].make, nothing) + 7) / 8 * 8 - RETURN_ADDRESS;
            bytes = taken(calls[at].make, calls[at].function) - above;
            if (bytes > calls[at].most)
                calls[at].most = bytes;
        }
    }
    for (unsigned at = 0; at < CALLED; at++)
        if (calls[at].function != NULL)
            printf("seen %s %zu\n", calls[at].name, calls[at].most);
    return 0;
}
