/* Every one of the 65,536 words is executed on several machines, and every word that names $00F on a machine for each
   cell that a pointer may be expected to trip over. */
#include "compare.h"
#include "support.h"

#include "../desk/galhoveia.h"
#include "../second/second.h"

#include <string.h>

enum { LISTED = 55814, UNLISTED_WORDS = 9722 };

static uint8_t program[PROGRAM_BYTES];

/* Most machines execute the word at once; one in eight is left as it was drawn, asleep or interrupted. */
static void ready(struct machine *machine, bool awake)
{
    random_machine(machine);
    if (awake) {
        machine->record[R_MODE] = RUNNING;
        machine->memory[0x000] &= (uint8_t)~machine->memory[0x001];
    }
}

/* Executes the word on both emulators. Answers whether it was executed, or refused as unlisted, rather than slept or
   interrupted over. */
static bool execute_on(const struct machine *machine, uint16_t word)
{
    unsigned pc = two(machine->record + R_PC);
    uint8_t keeps[2] = {program[2 * pc], program[2 * pc + 1]};
    bool awake = machine->record[R_MODE] == RUNNING && !(machine->memory[0x000] & machine->memory[0x001]);
    bool refused = awake && is_unlisted(word);
    struct machine left = *machine, right = *machine;
    uint64_t value = 99, second_value = 99;
    uint32_t answer, second_answer;

    set_two(program + 2 * pc, word);
    answer = galhoveia_step(program, sizeof program, left.memory, sizeof left.memory, left.record, sizeof left.record,
                            CYCLE, &value);
    second_answer = second_step(program, sizeof program, right.memory, sizeof right.memory, right.record,
                                sizeof right.record, CYCLE, &second_value);
    check(answer == second_answer && value == second_value && memcmp(&left, &right, sizeof left) == 0,
          "word $%04X at $%03X: answer %u with %llu, second %u with %llu, or another state", word, pc, answer,
          (unsigned long long)value, second_answer, (unsigned long long)second_value);
    check(answer == (refused ? 6 : 0) && value == (refused ? pc : 0)
          && (!refused || memcmp(&left, machine, sizeof left) == 0),
          "word $%04X at $%03X: answer %u with %llu", word, pc, answer, (unsigned long long)value);
    memcpy(program + 2 * pc, keeps, 2);
    reached[STEP][answer < REFUSALS ? answer : 0]++;
    return awake;
}

void compare_words(const struct plan *plan)
{
    uint8_t program_before[PROGRAM_BYTES];
    struct machine machine;
    unsigned long executed = 0, unlisted = 0, pointed = 0;

    random_program(program, MIX_ANY);
    memcpy(program_before, program, sizeof program);
    for (uint32_t word = 0; word <= 0xFFFF; word++) {
        unlisted += is_unlisted((uint16_t)word);
        for (unsigned times = 0; times < plan->machines; times++) {
            ready(&machine, times % 8 != 7);
            executed += execute_on(&machine, (uint16_t)word);
        }
    }
    check(unlisted == UNLISTED_WORDS, "%lu words are unlisted", unlisted);
    check(0x10000 - unlisted == LISTED, "%lu words are listed", 0x10000 - unlisted);
    for (uint32_t word = 0; word <= 0xFFFF; word++) {
        if (!touch_of((uint16_t)word, 0).through_pointer)
            continue;
        for (unsigned pointer = 0; pointer < MEMORY_BYTES; pointer += pointer < 0x24 ? 1 : 1 + any(24)) {
            ready(&machine, true);
            machine.memory[0x010] = pointer & 15;
            machine.memory[0x011] = pointer >> 4 & 7;
            machine.memory[0x012] = (uint8_t)(pointer >> 7);
            pointed += execute_on(&machine, (uint16_t)word);
        }
    }
    check(memcmp(program, program_before, sizeof program) == 0, "a step changed its program");
    progress("words: 65536 on %u machines each, %lu executed or refused; through $00F another %lu; failed so far %lu",
             plan->machines, executed, pointed, failed);
}
