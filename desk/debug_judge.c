/* What the library takes of a state and of events: it is asked by its own calls, on copies. */
#include "debug_words.h"
#include "mnemonics.h"
#include "run.h"

#include <stdio.h>

/* What the library answers to a state before any event happens to it; it is lent a copy. */
static uint32_t judge_state(const struct book *book, const struct state *state, uint64_t *value)
{
    struct state copy = *state;
    uint8_t nothing = 0;
    uint32_t reason;
    uint64_t done;

    return run_part(book, &copy, (struct bytes){&nothing, 0}, GALHOVEIA_NO_STOP, &reason, &done, value);
}

bool is_state(const struct book *book, const struct state *state, const char *what)
{
    uint64_t value = 0;
    uint32_t refusal = judge_state(book, state, &value);

    if (refusal != GALHOVEIA_DONE)
        say_refusal(what, refusal, value);
    return refusal == GALHOVEIA_DONE;
}

bool are_events(const struct debugger *debugger, struct bytes events, const char *what)
{
    uint64_t value;
    uint32_t refusal = judge_events(debugger->book, &debugger->now.state, events, &value);

    if (refusal != GALHOVEIA_DONE)
        say_refusal(what, refusal, value);
    return refusal == GALHOVEIA_DONE;
}

/* The library is asked by an LDA of the cell, on a copy that is awake and that nothing interrupts. */
unsigned reads_as(const struct state *state, unsigned cell)
{
    uint8_t program[GALHOVEIA_PROGRAM_BYTES] = {0};
    const struct book book = {.program = {program, sizeof program}};
    struct state copy = *state;
    unsigned address = two(copy.record + GALHOVEIA_RECORD_PC);
    char text[TEXT_ROOM];
    uint64_t value;
    uint16_t word;

    snprintf(text, sizeof text, "LDA %03X", cell);
    if (!word_of(chip_mnemonics(), text, &word))
        bad_listing("LDA has no line");
    program[2 * address] = (uint8_t)(word >> 8);
    program[2 * address + 1] = (uint8_t)word;
    copy.memory[INTERRUPTS_ENABLED] = 0;
    copy.record[GALHOVEIA_RECORD_MODE] = GALHOVEIA_RUNNING;
    step_once(&book, &copy, GALHOVEIA_EVENT_CYCLE, &value);
    return copy.record[GALHOVEIA_RECORD_AC];
}

unsigned bits_kept(const struct debugger *debugger, unsigned cell)
{
    struct state state = debugger->now.state;
    unsigned kept = 0;

    for (unsigned bit = 1; bit < 1u << BITS; bit <<= 1) {
        uint64_t value;

        state.memory[cell] = (uint8_t)bit;
        if (judge_state(debugger->book, &state, &value) != GALHOVEIA_MEMORY_CELL)
            kept |= bit;
    }
    return kept;
}
