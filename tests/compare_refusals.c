/* The refusals of step, run and fresh: each with its value, all orders in which several apply, and the rules of a lent
   machine at every bound. */
#include "compare.h"
#include "support.h"

#include <string.h>

static uint8_t program[PROGRAM_BYTES];

/* Bytes to lend where a length is wrong, longer than any right one. */
static uint8_t long_area[2 * PROGRAM_BYTES];

#define ANY_OF(list) (list[any(sizeof(list) / sizeof(list)[0])])

/* An awake machine in front of a NOP. */
static void plain_machine(struct machine *machine)
{
    random_machine(machine);
    machine->record[R_MODE] = RUNNING;
    machine->memory[0x000] = 0;
    set_two(program + 2 * two(machine->record + R_PC), 0xFFFF);
}

static uint8_t unknown_event(void)
{
    uint8_t event;

    do
        event = (uint8_t)any(any(4) ? 256 : PINS_A);
    while (is_known(event));
    return event;
}

/* Every set of reasons at once: the lowest must be told, with its own value. */
static void orders(void)
{
    enum { PROGRAM_LEN = 1, MEMORY_LEN = 2, CELL = 4, RECORD_LEN = 8, FIELD = 16, EVENT = 32, UNLISTED = 64, SETS = 128 };
    static const uint16_t program_lengths[] = {0, 1, 2, 4096, 8190, 8191, 8193, 8194, 16384};
    static const uint16_t memory_lengths[] = {0, 1, 512, 1023, 1025, 2048};
    static const uint16_t record_lengths[] = {0, 1, 36, 37, 38, 42, 43, 44, 46, 90};
    enum { REPEATS = 12, LENGTH = 9 };

    for (unsigned set = 0; set < SETS; set++)
        for (int repeat = 0; repeat < REPEATS; repeat++) {
            struct machine machine;
            uint8_t script[LENGTH] = {CYCLE};
            size_t place = any(LENGTH);
            struct lent lent_program = LENT(program), memory, record;
            unsigned bad_cell = 0;
            uint32_t number = 0, answer;
            uint64_t value = 0;

            plain_machine(&machine);
            if (set & CELL) {
                do
                    bad_cell = any(MEMORY_BYTES);
                while (bits_held(bad_cell) == 15);
                machine.memory[bad_cell] = (uint8_t)~bits_held(bad_cell);
                machine.memory[bad_cell + any(MEMORY_BYTES - bad_cell)] |= 0x80;
            }
            if (set & FIELD)
                machine.record[R_AC] = (uint8_t)(16 + any(240));
            if (set & UNLISTED)
                set_two(program + 2 * two(machine.record + R_PC), 0xC800 + any(0x300));
            memory = (struct lent){machine.memory, MEMORY_BYTES};
            record = (struct lent){machine.record, RECORD_BYTES};
            if (set & PROGRAM_LEN)
                lent_program = (struct lent){long_area, ANY_OF(program_lengths)};
            if (set & MEMORY_LEN)
                memory = (struct lent){long_area, ANY_OF(memory_lengths)};
            if (set & RECORD_LEN)
                record = (struct lent){long_area, ANY_OF(record_lengths)};
            if (set & EVENT) {
                script[place] = unknown_event();
                script[place + any((uint32_t)(LENGTH - place))] = unknown_event();
            }

            if (set & PROGRAM_LEN) {
                number = 1;
                value = lent_program.length;
            } else if (set & MEMORY_LEN) {
                number = 2;
                value = memory.length;
            } else if (set & CELL) {
                number = 3;
                value = bad_cell;
            } else if (set & (RECORD_LEN | FIELD)) {
                number = 4;
            } else if (set & EVENT) {
                number = 5;
                value = place;
            } else if (set & UNLISTED) {
                number = 6;
                value = two(machine.record + R_PC);
            }
            answer = pair_run(lent_program, memory, record, LENT(script), NO_STOP);
            if (number != 0)
                expect("run, several reasons", answer, number, value);
            else
                check(answer == 0 || answer == 6, "run with no reason against it answers %u", answer);
            answer = pair_step(lent_program, memory, record, set & EVENT ? script[place] : CYCLE);
            expect("step, several reasons", answer, number, number == 5 ? 0 : value);
        }
}

/* Every byte of memory to every value by the level call, every byte of the record by the picture call, which lend
   little and so are quick; some of both by steps. */
static void every_byte(void)
{
    static const uint8_t level_body[5] = {0x00, 0x20, 0x00, 0x21, 0};
    static const uint8_t wiring[3] = {0x03, 0x00, 0};
    static const uint8_t picture[1] = {0xEE};
    struct machine machine;
    unsigned long refused = 0;

    plain_machine(&machine);
    for (unsigned at = 0; at < MEMORY_BYTES; at++) {
        uint8_t keeps = machine.memory[at];

        for (unsigned byte = 0; byte < 256; byte++) {
            bool bad = byte & ~(unsigned)bits_held(at);
            uint32_t answer;

            machine.memory[at] = (uint8_t)byte;
            answer = pair_level(LENT(machine.memory), LENT(level_body));
            check(bad ? answer == 3 && after.value == at : answer == 0 || answer == 9,
                  "level, memory $%03X as %u: answer %u", at, byte, answer);
            refused += bad;
            if (any(16) != 0)
                continue;
            answer = pair_step(LENT(program), LENT(machine.memory), LENT(machine.record), PINS_D + 9);
            check(bad ? answer == 3 && after.value == at : answer == 0 || answer == 4,
                  "step, memory $%03X as %u: answer %u", at, byte, answer);
        }
        machine.memory[at] = keeps;
    }
    for (int repeat = 0; repeat < 24; repeat++) {
        plain_machine(&machine);
        for (unsigned at = 0; at < RECORD_BYTES; at++) {
            uint8_t keeps = machine.record[at];

            for (unsigned byte = 0; byte < 256; byte++) {
                uint32_t answer, step_answer;

                machine.record[at] = (uint8_t)byte;
                answer = pair_picture(LENT(machine.memory), LENT(machine.record), LENT(wiring), LENT(picture));
                check(answer == 0 || (answer == 4 && after.value == 0), "picture, record %u as %u: answer %u", at, byte,
                      answer);
                refused += answer != 0;
                if (any(16) != 0)
                    continue;
                step_answer = pair_step(LENT(program), LENT(machine.memory), LENT(machine.record), PINS_D + 6);
                check(step_answer == answer, "record %u as %u: step answers %u, picture %u", at, byte, step_answer,
                      answer);
            }
            machine.record[at] = keeps;
        }
    }
    progress("refusals: every memory and record byte to every value, %lu refused; failed so far %lu", refused, failed);
}

static void judge(const char *what, const struct machine *machine, bool good)
{
    uint8_t script[1] = {PINS_D};

    expect(what, pair_run(LENT(program), LENT(machine->memory), LENT(machine->record), LENT(script), NO_STOP),
           good ? 0 : 4, 0);
}

/* The record's rules that hang on memory, at every setting (01, What is lent). */
static void record_rules(void)
{
    struct machine machine;

    for (uint8_t mode = 0; mode < 16; mode++) {
        plain_machine(&machine);
        machine.memory[0x002] = mode;
        for (unsigned prescaler = 0; prescaler < 2200; prescaler += prescaler < 40 ? 1 : 1 + any(8)) {
            set_two(machine.record + R_T0_PRESCALER, prescaler);
            judge("Timer0 prescaler", &machine, prescaler < ratio_of(mode));
        }
        for (int off = -1; off <= 1; off++) {
            set_two(machine.record + R_T0_PRESCALER, ratio_of(mode) + (unsigned)off);
            judge("Timer0 prescaler at its ratio", &machine, off < 0);
        }
    }
    for (uint8_t mode = 0; mode < 16; mode++)
        for (unsigned prescaler = 0; prescaler < 256; prescaler += prescaler < 20 ? 1 : 9)
            for (unsigned counter = 0; counter < 256; counter += 51) {
                plain_machine(&machine);
                machine.memory[0x003] = mode;
                machine.record[R_BASE_PRESCALER] = (uint8_t)prescaler;
                machine.record[R_BASE_COUNTER] = (uint8_t)counter;
                judge("base timer", &machine,
                      base_is_on(mode) ? prescaler < base_ratio_of(mode) : prescaler == 0 && counter == 0);
            }
    for (uint8_t wdt = 0; wdt < 16; wdt++) {
        plain_machine(&machine);
        machine.memory[0x01E] = wdt;
        for (unsigned count = 0; count < 4200; count += count < 70 ? 1 : 1 + any(16)) {
            set_two(machine.record + R_WATCHDOG, count);
            judge("watchdog count", &machine, count >= 1 && count <= period_of(wdt));
        }
        for (int off = -1; off <= 1; off++) {
            unsigned count = period_of(wdt) + (unsigned)off;

            set_two(machine.record + R_WATCHDOG, count);
            judge("watchdog count at its period", &machine, off <= 0 && count >= 1);
        }
    }
    for (unsigned options = 0; options < 16; options++)
        for (uint8_t bonding = 0; bonding < 16; bonding++) {
            plain_machine(&machine);
            machine.memory[0x00C] = bonding;
            machine.record[R_OPTIONS] = (uint8_t)options;
            judge("options and $00C", &machine, options < 8 && options >> 1 == (bonding & 3u));
        }
    for (unsigned pending = 0; pending < 4; pending++)
        for (unsigned address = 0; address < 0x10000; address += address < 4 ? 1 : 1 + any(600)) {
            plain_machine(&machine);
            machine.record[R_PENDING] = (uint8_t)pending;
            set_two(machine.record + R_PENDING_ADDRESS, address);
            judge("pending read", &machine, pending == 1 ? address < 4096 : pending == 0 && address == 0);
        }
    for (int level = 0; level < 8; level++)
        for (unsigned entry = 0; entry < 0x10000; entry += 1 + any(700)) {
            plain_machine(&machine);
            set_two(machine.record + R_STACK + 2 * level, entry);
            judge("stack entry", &machine, entry < 8192);
        }
}

/* Counts and outputs of the sound channels, whatever the registers hold (02, P1). */
static void sound_rules(void)
{
    struct machine machine;

    for (int channel = 0; channel < CHANNELS; channel++) {
        uint8_t *fields = machine.record + R_SOUND_BYTES * channel;

        for (unsigned count = 0; count < 0x10000; count += count < 1010 || count > 1030 ? 1 + any(60) : 1) {
            plain_machine(&machine);
            set_two(fields + R_SOUND_COUNT, count);
            judge("count of a sound channel", &machine, count < SOUND_COUNTS);
        }
        for (unsigned output = 0; output < 256; output++) {
            plain_machine(&machine);
            fields[R_SOUND_OUTPUT] = (uint8_t)output;
            judge("output of a sound channel", &machine, output < 2);
        }
        for (unsigned enabled = 0; enabled < 4; enabled++)
            for (int off = -1; off <= 1; off++) {
                plain_machine(&machine);
                machine.memory[0x377] = (uint8_t)enabled;
                set_two(fields + R_SOUND_COUNT, SOUND_COUNTS - 1 + (unsigned)off);
                judge("count of a sound channel at its bound", &machine, off <= 0);
            }
    }
}

/* The frozen nibble of Timer0's counter and its mark (02, P2). */
static void frozen_rules(void)
{
    struct machine machine;

    for (unsigned mark = 0; mark < 256; mark++)
        for (unsigned nibble = 0; nibble < 256; nibble += mark < 3 || nibble < 18 ? 1 : 1 + any(60)) {
            plain_machine(&machine);
            machine.record[R_FROZEN] = (uint8_t)nibble;
            machine.record[R_FROZEN_MARK] = (uint8_t)mark;
            judge("frozen nibble and mark", &machine, mark == 0 ? nibble == 0 : mark == 1 && nibble < 16);
        }
}

/* Every event byte, alone and at every place of a script. */
static void event_bytes(void)
{
    struct machine machine;

    for (unsigned event = 0; event < 256; event++) {
        bool known = is_known(event);

        plain_machine(&machine);
        expect("an event byte", pair_step(LENT(program), LENT(machine.memory), LENT(machine.record), (uint8_t)event),
               known ? 0 : 5, 0);
        for (size_t place = 0; place < 12; place++) {
            uint8_t script[12];

            memset(script, PINS_D, sizeof script);
            script[place] = (uint8_t)event;
            expect("an event byte in a script",
                   pair_run(LENT(program), LENT(machine.memory), LENT(machine.record), LENT(script), any(WORDS)),
                   known ? 0 : 5, known ? 0 : place);
        }
    }
    plain_machine(&machine);
    expect("an empty script", pair_run(LENT(program), LENT(machine.memory), LENT(machine.record),
                                       (struct lent){long_area, 0}, 0), 0, 0);
    check(after.reason == AT_END && after.events == 0, "an empty script: reason %u", after.reason);
}

/* Several bytes of a machine spoiled at once. */
static void spoiled_machines(void)
{
    enum { MACHINES = 20000 };
    static uint8_t script[64];
    unsigned long by_number[REFUSALS] = {0};

    random_program(program, MIX_ANY);
    for (int number = 0; number < MACHINES; number++) {
        struct machine machine;
        uint32_t answer;

        random_machine(&machine);
        random_script(script, sizeof script, MIX_ANY);
        for (unsigned spoil = any(4); spoil > 0; spoil--)
            machine.record[any(RECORD_BYTES)] ^= (uint8_t)(1u << any(8));
        if (any(4) == 0)
            machine.memory[any(MEMORY_BYTES)] ^= (uint8_t)(1u << any(8));
        if (any(4) == 0)
            script[any(sizeof script)] = (uint8_t)any(256);
        answer = pair_run(LENT(program), LENT(machine.memory), LENT(machine.record), LENT(script), any(2 * WORDS));
        by_number[answer < REFUSALS ? answer : 0]++;
    }
    progress("refusals: spoiled machines, done %lu, refused by 3 %lu, 4 %lu, 5 %lu, 6 %lu; failed so far %lu",
             by_number[0], by_number[3], by_number[4], by_number[5], by_number[6], failed);
}

static void fresh_machines(void)
{
    static const uint16_t memory_lengths[] = {0, 1, 1023, 1025, 8192};
    static const uint16_t record_lengths[] = {0, 1, 36, 37, 38, 42, 43, 44, 46, 1024};
    struct machine machine;

    for (unsigned set = 0; set < 8; set++)
        for (int repeat = 0; repeat < 60; repeat++) {
            struct lent memory = LENT(machine.memory), record = LENT(machine.record);
            uint32_t options = set & 4 ? (any(2) ? 8 + any(300) : (uint32_t)any_64() | 8) : any(8);
            uint32_t answer;

            memset(&machine, (int)any(256), sizeof machine);
            if (set & 1)
                memory = (struct lent){long_area, ANY_OF(memory_lengths)};
            if (set & 2)
                record = (struct lent){long_area, ANY_OF(record_lengths)};
            answer = pair_fresh(memory, record, options);
            if (set & 1)
                expect("fresh", answer, 2, memory.length);
            else if (set & 2)
                expect("fresh", answer, 4, 0);
            else if (set & 4)
                expect("fresh", answer, 12, options);
            else
                expect("fresh", answer, 0, 0);
        }
    for (uint32_t options = 0; options < 8; options++) {
        struct machine fresh;
        unsigned wrong = 0;

        memset(&machine, 0xEE, sizeof machine);
        expect("fresh", pair_fresh(LENT(machine.memory), LENT(machine.record), options), 0, 0);
        memcpy(fresh.memory, after.memory, MEMORY_BYTES);
        memcpy(fresh.record, after.record, RECORD_BYTES);
        for (unsigned address = 0; address < MEMORY_BYTES; address++)
            wrong += fresh.memory[address] != (address == 0x00C ? options >> 1 : address == 0x013 ? 4 : 0);
        for (unsigned at = 0; at < RECORD_BYTES; at++)
            wrong += fresh.record[at] != (at == R_WATCHDOG ? 4096 >> 8 : at == R_OPTIONS ? options : 0);
        check(wrong == 0, "a fresh machine with options %u: %u bytes wrong", options, wrong);
        expect("its first event",
               pair_step(LENT(program), LENT(fresh.memory), LENT(fresh.record), RESET_PIN), 0, 0);
        check(memcmp(after.memory, fresh.memory, MEMORY_BYTES) == 0
              && memcmp(after.record, fresh.record, RECORD_BYTES) == 0, "a pin reset changes a fresh machine");
    }
}

void compare_refusals(void)
{
    for (size_t at = 0; at < sizeof long_area; at++)
        long_area[at] = (uint8_t)any(256);
    memset(program, 0xFF, sizeof program);
    orders();
    event_bytes();
    progress("refusals: all orders of 1 to 6 in step and run, every event byte; failed so far %lu", failed);
    every_byte();
    record_rules();
    sound_rules();
    frozen_rules();
    progress("refusals: the record's rules at their bounds; failed so far %lu", failed);
    fresh_machines();
    spoiled_machines();
}
