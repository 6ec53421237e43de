/* All that a report's page must tell, worked out with the second emulator. */
#include "page_check.h"

#include <string.h>

enum { LEVEL_GROUND = 4 };

static const char fresh_name[] = "A fresh machine", run_name[] = "The run", picture_name[] = "The picture",
                  level_name[] = "The level";

struct machine {
    uint8_t memory[SECOND_CELLS], record[SECOND_RECORD_BYTES];
};

static unsigned pc_of(const struct machine *machine)
{
    return machine->record[0] * 256u + machine->record[1];
}

/* ---- The program ---- */

static void expect_lines(struct expected *expected)
{
    static uint8_t text[SECOND_LISTING_BYTES_MOST];
    uint64_t count = 0, value;
    const char *at = (const char *)text;

    second_listing_write(expected->program, SECOND_PROGRAM_BYTES, text, sizeof text, &count, &value);
    for (unsigned address = 0; address < SECOND_WORDS; address++) {
        size_t length = strcspn(at, "\n");

        memcpy(expected->line[address], at, length);
        at += length + 1;
    }
}

static void expect_writers(struct expected *expected)
{
    static uint8_t addresses[SECOND_PROGRAM_BYTES];
    uint64_t bytes = 0, value;

    for (int digit = 0; digit < DIGITS; digit++) {
        second_list(expected->program, SECOND_PROGRAM_BYTES, expected->cell[digit], addresses, sizeof addresses, &bytes,
                    &value);
        for (uint64_t at = 0; at < bytes; at += 2)
            expected->listed[digit][addresses[at] * 256u + addresses[at + 1]] = true;
    }
    second_xref_build(expected->program, SECOND_PROGRAM_BYTES, expected->tables, SECOND_XREF_NUMBERS, &value);
}

/* ---- Refusals ---- */

static bool is_same(struct told one, struct told other)
{
    return one.number == other.number && one.value == other.value;
}

static void refuse(struct expected *expected, const char *what, struct told told, uint64_t events, bool often)
{
    struct refused *refused = expected->refused;

    if (told.number == 0)
        return;
    while (refused < expected->refused + expected->refusals && !(refused->what == what && is_same(refused->told, told)))
        refused++;
    if (refused == expected->refused + expected->refusals) {
        *refused = (struct refused){what, told, events, 0};
        expected->refusals++;
    }
    refused->times += often;
}

/* ---- Stands ---- */

static struct stand look(const struct asked *asked, const struct machine *machine, const char *place, uint64_t events)
{
    struct stand stand = {.place = place, .events = events, .until = events};
    const uint8_t *level = asked->book + asked->level;

    stand.picture_told.number = second_picture(machine->memory, SECOND_CELLS, machine->record, SECOND_RECORD_BYTES,
                                               asked->book + asked->wiring, (size_t)asked->wiring_len, stand.picture,
                                               sizeof stand.picture, &stand.elements, &stand.picture_told.value);
    stand.level_told.number = second_level(machine->memory, SECOND_CELLS, level, (size_t)asked->level_len, &stand.level,
                                           &stand.level_told.value);
    for (int digit = 0; digit < DIGITS; digit++)
        stand.digit[digit] = machine->memory[level[2 * digit] * 256u + level[2 * digit + 1]];
    return stand;
}

static bool is_alike(const struct stand *one, const struct stand *other)
{
    return is_same(one->picture_told, other->picture_told) && is_same(one->level_told, other->level_told)
           && memcmp(one->picture, other->picture, sizeof one->picture) == 0
           && memcmp(one->digit, other->digit, sizeof one->digit) == 0;
}

/* Equal stops in a row are one stand; of the stands between start and end the page has the first so many. */
static void stand_at(struct expected *expected, const struct stand *stand)
{
    struct stand *last = expected->stands > 0 ? &expected->stand[expected->stands - 1] : NULL;
    bool stop = strcmp(stand->place, "stop") == 0;

    expected->looks++;
    expected->unread += stand->level_told.number != 0;
    expected->differing += stand->level_told.number == 0 && stand->digit[0] > 0;
    refuse(expected, picture_name, stand->picture_told, stand->events, true);
    refuse(expected, level_name, stand->level_told, stand->events, true);
    if (stop && expected->left_out == 0 && strcmp(last->place, "stop") == 0 && is_alike(last, stand)) {
        last->more++;
        last->until = stand->events;
    } else if (stop && expected->stands == STANDS_MOST - 1) {
        expected->left_out++;
    } else {
        expected->stand[expected->stands++] = *stand;
    }
}

/* ---- The run ---- */

/* By single steps: what changed the level cells. */
static void expect_changes(struct expected *expected, const struct asked *asked, struct machine machine)
{
    for (uint64_t event = 0; event < expected->done; event++) {
        struct machine before = machine;
        uint64_t value;

        second_step(expected->program, SECOND_PROGRAM_BYTES, machine.memory, SECOND_CELLS, machine.record,
                    SECOND_RECORD_BYTES, asked->script[event], &value);
        for (int digit = 0; digit < DIGITS; digit++) {
            unsigned old = before.memory[expected->cell[digit]], new = machine.memory[expected->cell[digit]];

            if (old == new)
                continue;
            expected->all_changes++;
            expected->changed[digit][pc_of(&before)]++;
            if (expected->changes < CHANGES_MOST)
                expected->change[expected->changes++] = (struct change){event, digit, old, new, pc_of(&before)};
        }
    }
}

/* By runs, each to the next stop. */
static void expect_run(struct expected *expected, const struct asked *asked, struct machine machine)
{
    struct stand stand = look(asked, &machine, "start", 0);

    expected->reason = SECOND_AT_ADDRESS;
    while (expected->reason == SECOND_AT_ADDRESS) {
        uint64_t events = 0;

        expected->run.number = second_run(
            expected->program, SECOND_PROGRAM_BYTES, machine.memory, SECOND_CELLS, machine.record, SECOND_RECORD_BYTES,
            asked->script + expected->done, asked->script_len - (size_t)expected->done, asked->stop, &expected->reason,
            &events, &expected->run.value);
        if (expected->run.number != 0 && expected->run.number != 6)
            break;
        if (!expected->has_run) {
            expected->has_run = true;
            stand_at(expected, &stand);
        }
        expected->done += events;
        stand = look(asked, &machine, expected->reason == SECOND_AT_ADDRESS ? "stop" : "end", expected->done);
        if (expected->reason != SECOND_AT_ADDRESS)
            refuse(expected, run_name, expected->run, 0, false);
        stand_at(expected, &stand);
    }
    if (!expected->has_run) {
        refuse(expected, run_name, expected->run, 0, false);
        stand_at(expected, &stand);
    }
    expected->end_pc = pc_of(&machine);
}

/* The page tells of the run's refusal before those of its stops. */
static void run_first(struct expected *expected)
{
    for (size_t at = 1; at < expected->refusals; at++)
        if (expected->refused[at].what == run_name) {
            struct refused run = expected->refused[at];

            memmove(expected->refused + 1, expected->refused, at * sizeof run);
            expected->refused[0] = run;
        }
}

void expect(struct expected *expected, const struct asked *asked)
{
    const uint8_t *level = asked->book + asked->level;
    struct machine machine;

    memset(expected, 0, sizeof *expected);
    expected->program = asked->book + asked->program;
    for (int digit = 0; digit < DIGITS; digit++)
        expected->cell[digit] = level[2 * digit] * 256u + level[2 * digit + 1];
    expected->ground = level[LEVEL_GROUND];
    expect_lines(expected);
    expect_writers(expected);
    if (!asked->has_script)
        return;
    memcpy(machine.memory, asked->memory, sizeof machine.memory);
    memcpy(machine.record, asked->record, sizeof machine.record);
    if (!asked->has_state)
        expected->start.number = second_fresh(machine.memory, SECOND_CELLS, machine.record, SECOND_RECORD_BYTES,
                                              asked->options, &expected->start.value);
    refuse(expected, fresh_name, expected->start, 0, false);
    if (expected->start.number != 0)
        return;
    expect_run(expected, asked, machine);
    run_first(expected);
    if (expected->has_run)
        expect_changes(expected, asked, machine);
}
