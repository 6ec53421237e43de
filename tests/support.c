/* Every call made on both emulators with the same lent bytes. */
#include "support.h"

#include "lending.h"

#include "../desk/galhoveia.h"
#include "../second/second.h"

#include <string.h>

const char *const call_name[CALLS] = {"step",      "run",        "list",          "level",        "fresh",  "picture",
                                      "book_read", "book_write", "listing_write", "listing_read", "run_two",
                                      "xref_build", "xref_list", "xref_replace"};
unsigned long reached[CALLS][REFUSALS];
struct after after;

/* Out values start with these, so that one that was not to be written can be told. */
static const struct after untouched = {
    UINT64_C(0xA1A2A3A4A5A6A7A8), 0xB1B2B3B4, UINT64_C(0xC1C2C3C4C5C6C7C8), -0x1D2D3D4D, UINT64_C(0xE1E2E3E4E5E6E7E8),
    {11, 22, 33, 44, 55, 66}, {0xF1F2F3F4, 0xF5F6F7F8}, UINT64_C(0xD1D2D3D4D5D6D7D8), NULL, NULL, NULL,
    {NULL, NULL}, {NULL, NULL}, {NULL, NULL}, NULL, NULL};

struct outcome {
    uint32_t answer;
    struct after out;
};

static bool same_numbers(const struct after *left, const struct after *right)
{
    return left->reason == right->reason && left->events == right->events && left->level == right->level
           && left->count == right->count && memcmp(left->part, right->part, sizeof left->part) == 0
           && left->reason_of[0] == right->reason_of[0] && left->reason_of[1] == right->reason_of[1]
           && left->entries == right->entries;
}

/* Whether the call may have changed what it was lent for writing. */
static bool may_write(enum call call, uint32_t answer)
{
    return answer == 0 || (call == RUN && answer == 6);
}

static uint32_t conclude(enum call call, const struct outcome outcome[SIDES])
{
    const struct outcome *left = &outcome[GALHOVEIA], *right = &outcome[SECOND];

    check(left->answer == right->answer, "%s answers %u, second %u", call_name[call], left->answer, right->answer);
    check(left->out.value == right->out.value, "%s, answer %u, value %llu, second %llu", call_name[call], left->answer,
          (unsigned long long)left->out.value, (unsigned long long)right->out.value);
    check(same_numbers(&left->out, &right->out), "%s, answer %u: an out value differs", call_name[call], left->answer);
    if (!may_write(call, left->answer))
        check(same_numbers(&left->out, &untouched), "%s, refused by %u, writes an out value", call_name[call],
              left->answer);
    check(left->answer != 0 || left->out.value == 0, "%s, done, value not 0", call_name[call]);
    if (left->answer < REFUSALS)
        reached[call][left->answer]++;
    after = left->out;
    return left->answer;
}

uint32_t pair_step(struct lent program, struct lent memory, struct lent record, uint8_t event)
{
    struct outcome outcome[SIDES] = {{0, untouched}, {0, untouched}};
    uint32_t answer;

    give(SLOT_PROGRAM, program);
    give(SLOT_MEMORY, memory);
    give(SLOT_RECORD, record);
    outcome[GALHOVEIA].answer =
        galhoveia_step(held[GALHOVEIA][SLOT_PROGRAM], program.length, held[GALHOVEIA][SLOT_MEMORY], memory.length,
                       held[GALHOVEIA][SLOT_RECORD], record.length, event, &outcome[GALHOVEIA].out.value);
    outcome[SECOND].answer =
        second_step(held[SECOND][SLOT_PROGRAM], program.length, held[SECOND][SLOT_MEMORY], memory.length,
                    held[SECOND][SLOT_RECORD], record.length, event, &outcome[SECOND].out.value);
    answer = conclude(STEP, outcome);
    compare_area(STEP, "program", SLOT_PROGRAM, program, false);
    compare_area(STEP, "memory", SLOT_MEMORY, memory, may_write(STEP, answer));
    compare_area(STEP, "record", SLOT_RECORD, record, may_write(STEP, answer));
    after.memory = held[GALHOVEIA][SLOT_MEMORY];
    after.record = held[GALHOVEIA][SLOT_RECORD];
    return answer;
}

uint32_t pair_run(struct lent program, struct lent memory, struct lent record, struct lent script, uint32_t stop)
{
    struct outcome outcome[SIDES] = {{0, untouched}, {0, untouched}};
    uint32_t answer;

    give(SLOT_PROGRAM, program);
    give(SLOT_MEMORY, memory);
    give(SLOT_RECORD, record);
    give(SLOT_SCRIPT, script);
    outcome[GALHOVEIA].answer =
        galhoveia_run(held[GALHOVEIA][SLOT_PROGRAM], program.length, held[GALHOVEIA][SLOT_MEMORY], memory.length,
                      held[GALHOVEIA][SLOT_RECORD], record.length, held[GALHOVEIA][SLOT_SCRIPT], script.length, stop,
                      &outcome[GALHOVEIA].out.reason, &outcome[GALHOVEIA].out.events, &outcome[GALHOVEIA].out.value);
    outcome[SECOND].answer =
        second_run(held[SECOND][SLOT_PROGRAM], program.length, held[SECOND][SLOT_MEMORY], memory.length,
                   held[SECOND][SLOT_RECORD], record.length, held[SECOND][SLOT_SCRIPT], script.length, stop,
                   &outcome[SECOND].out.reason, &outcome[SECOND].out.events, &outcome[SECOND].out.value);
    answer = conclude(RUN, outcome);
    compare_area(RUN, "program", SLOT_PROGRAM, program, false);
    compare_area(RUN, "memory", SLOT_MEMORY, memory, may_write(RUN, answer));
    compare_area(RUN, "record", SLOT_RECORD, record, may_write(RUN, answer));
    compare_area(RUN, "script", SLOT_SCRIPT, script, false);
    after.memory = held[GALHOVEIA][SLOT_MEMORY];
    after.record = held[GALHOVEIA][SLOT_RECORD];
    return answer;
}

uint32_t pair_list(struct lent program, uint32_t cell, struct lent output)
{
    struct outcome outcome[SIDES] = {{0, untouched}, {0, untouched}};
    uint32_t answer;

    give(SLOT_PROGRAM, program);
    give(SLOT_OUTPUT, output);
    outcome[GALHOVEIA].answer =
        galhoveia_list(held[GALHOVEIA][SLOT_PROGRAM], program.length, cell, held[GALHOVEIA][SLOT_OUTPUT],
                       output.length, &outcome[GALHOVEIA].out.count, &outcome[GALHOVEIA].out.value);
    outcome[SECOND].answer =
        second_list(held[SECOND][SLOT_PROGRAM], program.length, cell, held[SECOND][SLOT_OUTPUT], output.length,
                    &outcome[SECOND].out.count, &outcome[SECOND].out.value);
    answer = conclude(LIST, outcome);
    compare_area(LIST, "program", SLOT_PROGRAM, program, false);
    compare_area(LIST, "addresses", SLOT_OUTPUT, output, may_write(LIST, answer));
    after.output = held[GALHOVEIA][SLOT_OUTPUT];
    return answer;
}

uint32_t pair_level(struct lent memory, struct lent body)
{
    struct outcome outcome[SIDES] = {{0, untouched}, {0, untouched}};
    uint32_t answer;

    give(SLOT_MEMORY, memory);
    give(SLOT_BODY, body);
    outcome[GALHOVEIA].answer =
        galhoveia_level(held[GALHOVEIA][SLOT_MEMORY], memory.length, held[GALHOVEIA][SLOT_BODY], body.length,
                        &outcome[GALHOVEIA].out.level, &outcome[GALHOVEIA].out.value);
    outcome[SECOND].answer =
        second_level(held[SECOND][SLOT_MEMORY], memory.length, held[SECOND][SLOT_BODY], body.length,
                     &outcome[SECOND].out.level, &outcome[SECOND].out.value);
    answer = conclude(LEVEL, outcome);
    compare_area(LEVEL, "memory", SLOT_MEMORY, memory, false);
    compare_area(LEVEL, "body", SLOT_BODY, body, false);
    return answer;
}

uint32_t pair_fresh(struct lent memory, struct lent record, uint32_t options)
{
    struct outcome outcome[SIDES] = {{0, untouched}, {0, untouched}};
    uint32_t answer;

    give(SLOT_MEMORY, memory);
    give(SLOT_RECORD, record);
    outcome[GALHOVEIA].answer =
        galhoveia_fresh(held[GALHOVEIA][SLOT_MEMORY], memory.length, held[GALHOVEIA][SLOT_RECORD], record.length,
                        options, &outcome[GALHOVEIA].out.value);
    outcome[SECOND].answer =
        second_fresh(held[SECOND][SLOT_MEMORY], memory.length, held[SECOND][SLOT_RECORD], record.length, options,
                     &outcome[SECOND].out.value);
    answer = conclude(FRESH, outcome);
    compare_area(FRESH, "memory", SLOT_MEMORY, memory, may_write(FRESH, answer));
    compare_area(FRESH, "record", SLOT_RECORD, record, may_write(FRESH, answer));
    after.memory = held[GALHOVEIA][SLOT_MEMORY];
    after.record = held[GALHOVEIA][SLOT_RECORD];
    return answer;
}

uint32_t pair_picture(struct lent memory, struct lent record, struct lent body, struct lent output)
{
    struct outcome outcome[SIDES] = {{0, untouched}, {0, untouched}};
    uint32_t answer;

    give(SLOT_MEMORY, memory);
    give(SLOT_RECORD, record);
    give(SLOT_BODY, body);
    give(SLOT_OUTPUT, output);
    outcome[GALHOVEIA].answer =
        galhoveia_picture(held[GALHOVEIA][SLOT_MEMORY], memory.length, held[GALHOVEIA][SLOT_RECORD], record.length,
                          held[GALHOVEIA][SLOT_BODY], body.length, held[GALHOVEIA][SLOT_OUTPUT], output.length,
                          &outcome[GALHOVEIA].out.count, &outcome[GALHOVEIA].out.value);
    outcome[SECOND].answer =
        second_picture(held[SECOND][SLOT_MEMORY], memory.length, held[SECOND][SLOT_RECORD], record.length,
                       held[SECOND][SLOT_BODY], body.length, held[SECOND][SLOT_OUTPUT], output.length,
                       &outcome[SECOND].out.count, &outcome[SECOND].out.value);
    answer = conclude(PICTURE, outcome);
    compare_area(PICTURE, "memory", SLOT_MEMORY, memory, false);
    compare_area(PICTURE, "record", SLOT_RECORD, record, false);
    compare_area(PICTURE, "body", SLOT_BODY, body, false);
    compare_area(PICTURE, "picture", SLOT_OUTPUT, output, may_write(PICTURE, answer));
    after.output = held[GALHOVEIA][SLOT_OUTPUT];
    return answer;
}

uint32_t pair_book_read(struct lent book)
{
    struct outcome outcome[SIDES] = {{0, untouched}, {0, untouched}};
    uint64_t *left = outcome[GALHOVEIA].out.part, *right = outcome[SECOND].out.part;
    uint32_t answer;

    give(SLOT_BODY, book);
    outcome[GALHOVEIA].answer =
        galhoveia_book_read(held[GALHOVEIA][SLOT_BODY], book.length, &left[0], &left[1], &left[2], &left[3], &left[4],
                            &left[5], &outcome[GALHOVEIA].out.value);
    outcome[SECOND].answer = second_book_read(held[SECOND][SLOT_BODY], book.length, &right[0], &right[1], &right[2],
                                              &right[3], &right[4], &right[5], &outcome[SECOND].out.value);
    answer = conclude(BOOK_READ, outcome);
    compare_area(BOOK_READ, "book", SLOT_BODY, book, false);
    return answer;
}

uint32_t pair_book_write(struct lent program, struct lent wiring, struct lent level, struct lent output)
{
    struct outcome outcome[SIDES] = {{0, untouched}, {0, untouched}};
    uint32_t answer;

    give(SLOT_PROGRAM, program);
    give(SLOT_BODY, wiring);
    give(SLOT_OTHER_BODY, level);
    give(SLOT_OUTPUT, output);
    outcome[GALHOVEIA].answer =
        galhoveia_book_write(held[GALHOVEIA][SLOT_PROGRAM], program.length, held[GALHOVEIA][SLOT_BODY], wiring.length,
                             held[GALHOVEIA][SLOT_OTHER_BODY], level.length, held[GALHOVEIA][SLOT_OUTPUT],
                             output.length, &outcome[GALHOVEIA].out.count, &outcome[GALHOVEIA].out.value);
    outcome[SECOND].answer =
        second_book_write(held[SECOND][SLOT_PROGRAM], program.length, held[SECOND][SLOT_BODY], wiring.length,
                          held[SECOND][SLOT_OTHER_BODY], level.length, held[SECOND][SLOT_OUTPUT], output.length,
                          &outcome[SECOND].out.count, &outcome[SECOND].out.value);
    answer = conclude(BOOK_WRITE, outcome);
    compare_area(BOOK_WRITE, "program", SLOT_PROGRAM, program, false);
    compare_area(BOOK_WRITE, "wiring", SLOT_BODY, wiring, false);
    compare_area(BOOK_WRITE, "level", SLOT_OTHER_BODY, level, false);
    compare_area(BOOK_WRITE, "book", SLOT_OUTPUT, output, may_write(BOOK_WRITE, answer));
    after.output = held[GALHOVEIA][SLOT_OUTPUT];
    return answer;
}

uint32_t pair_listing_write(struct lent program, struct lent output)
{
    struct outcome outcome[SIDES] = {{0, untouched}, {0, untouched}};
    uint32_t answer;

    give(SLOT_PROGRAM, program);
    give(SLOT_OUTPUT, output);
    outcome[GALHOVEIA].answer =
        galhoveia_listing_write(held[GALHOVEIA][SLOT_PROGRAM], program.length, held[GALHOVEIA][SLOT_OUTPUT],
                                output.length, &outcome[GALHOVEIA].out.count, &outcome[GALHOVEIA].out.value);
    outcome[SECOND].answer =
        second_listing_write(held[SECOND][SLOT_PROGRAM], program.length, held[SECOND][SLOT_OUTPUT], output.length,
                             &outcome[SECOND].out.count, &outcome[SECOND].out.value);
    answer = conclude(LISTING_WRITE, outcome);
    compare_area(LISTING_WRITE, "program", SLOT_PROGRAM, program, false);
    compare_area(LISTING_WRITE, "text", SLOT_OUTPUT, output, may_write(LISTING_WRITE, answer));
    after.output = held[GALHOVEIA][SLOT_OUTPUT];
    return answer;
}

uint32_t pair_listing_read(struct lent text, struct lent output)
{
    struct outcome outcome[SIDES] = {{0, untouched}, {0, untouched}};
    uint32_t answer;

    give(SLOT_BODY, text);
    give(SLOT_OUTPUT, output);
    outcome[GALHOVEIA].answer =
        galhoveia_listing_read(held[GALHOVEIA][SLOT_BODY], text.length, held[GALHOVEIA][SLOT_OUTPUT], output.length,
                               &outcome[GALHOVEIA].out.value);
    outcome[SECOND].answer = second_listing_read(held[SECOND][SLOT_BODY], text.length, held[SECOND][SLOT_OUTPUT],
                                                 output.length, &outcome[SECOND].out.value);
    answer = conclude(LISTING_READ, outcome);
    compare_area(LISTING_READ, "text", SLOT_BODY, text, false);
    compare_area(LISTING_READ, "program", SLOT_OUTPUT, output, may_write(LISTING_READ, answer));
    after.output = held[GALHOVEIA][SLOT_OUTPUT];
    return answer;
}

/* The places of each car's memory, record and picture. */
static const enum slot slot_of[CARS][3] = {{SLOT_MEMORY, SLOT_RECORD, SLOT_OUTPUT},
                                           {SLOT_OTHER_MEMORY, SLOT_OTHER_RECORD, SLOT_OTHER_OUTPUT}};

static void run_two_on(enum side side, struct lent program, struct lent wiring, const struct lent_car car[CARS],
                       struct lent script, struct outcome *outcome)
{
    static __typeof__(galhoveia_run_two) *const run_two[SIDES] = {galhoveia_run_two, second_run_two};
    uint8_t *const *at = held[side];
    struct after *out = &outcome->out;

    outcome->answer =
        run_two[side](at[SLOT_PROGRAM], program.length, at[SLOT_BODY], wiring.length,
                      at[SLOT_MEMORY], car[0].memory.length, at[SLOT_RECORD], car[0].record.length,
                      at[SLOT_OUTPUT], car[0].picture.length,
                      at[SLOT_OTHER_MEMORY], car[1].memory.length, at[SLOT_OTHER_RECORD], car[1].record.length,
                      at[SLOT_OTHER_OUTPUT], car[1].picture.length,
                      at[SLOT_SCRIPT], script.length, car[0].stop, car[1].stop,
                      &out->reason_of[0], &out->reason_of[1], &out->entries, &out->value);
}

uint32_t pair_run_two(struct lent program, struct lent wiring, const struct lent_car car[CARS], struct lent script)
{
    struct outcome outcome[SIDES] = {{0, untouched}, {0, untouched}};
    bool done;

    give(SLOT_PROGRAM, program);
    give(SLOT_BODY, wiring);
    give(SLOT_SCRIPT, script);
    for (int at = 0; at < CARS; at++) {
        give(slot_of[at][0], car[at].memory);
        give(slot_of[at][1], car[at].record);
        give(slot_of[at][2], car[at].picture);
    }
    for (int side = 0; side < SIDES; side++)
        run_two_on(side, program, wiring, car, script, &outcome[side]);
    done = may_write(RUN_TWO, conclude(RUN_TWO, outcome));
    compare_area(RUN_TWO, "program", SLOT_PROGRAM, program, false);
    compare_area(RUN_TWO, "wiring", SLOT_BODY, wiring, false);
    compare_area(RUN_TWO, "script", SLOT_SCRIPT, script, false);
    for (int at = 0; at < CARS; at++) {
        compare_area(RUN_TWO, at == 0 ? "memory 0" : "memory 1", slot_of[at][0], car[at].memory, done);
        compare_area(RUN_TWO, at == 0 ? "record 0" : "record 1", slot_of[at][1], car[at].record, done);
        compare_area(RUN_TWO, at == 0 ? "picture 0" : "picture 1", slot_of[at][2], car[at].picture, done);
        after.memory_of[at] = held[GALHOVEIA][slot_of[at][0]];
        after.record_of[at] = held[GALHOVEIA][slot_of[at][1]];
        after.picture_of[at] = held[GALHOVEIA][slot_of[at][2]];
    }
    return outcome[GALHOVEIA].answer;
}

static struct lent as_bytes(struct lent_tables tables)
{
    return (struct lent){(const uint8_t *)tables.numbers, sizeof *tables.numbers * tables.length};
}

static uint16_t *tables_held(enum side side)
{
    return (uint16_t *)(void *)held[side][SLOT_TABLES];
}

uint32_t pair_xref_build(struct lent program, struct lent_tables tables)
{
    static __typeof__(galhoveia_xref_build) *const build[SIDES] = {galhoveia_xref_build, second_xref_build};
    struct outcome outcome[SIDES] = {{0, untouched}, {0, untouched}};
    uint32_t answer;

    give(SLOT_PROGRAM, program);
    give(SLOT_TABLES, as_bytes(tables));
    for (int side = 0; side < SIDES; side++)
        outcome[side].answer = build[side](held[side][SLOT_PROGRAM], program.length, tables_held(side), tables.length,
                                           &outcome[side].out.value);
    answer = conclude(XREF_BUILD, outcome);
    compare_area(XREF_BUILD, "program", SLOT_PROGRAM, program, false);
    compare_area(XREF_BUILD, "tables", SLOT_TABLES, as_bytes(tables), may_write(XREF_BUILD, answer));
    after.tables = tables_held(GALHOVEIA);
    return answer;
}

uint32_t pair_xref_list(struct lent program, struct lent_tables tables, uint32_t cell, struct lent output)
{
    static __typeof__(galhoveia_xref_list) *const list[SIDES] = {galhoveia_xref_list, second_xref_list};
    struct outcome outcome[SIDES] = {{0, untouched}, {0, untouched}};
    uint32_t answer;

    give(SLOT_PROGRAM, program);
    give(SLOT_TABLES, as_bytes(tables));
    give(SLOT_OUTPUT, output);
    for (int side = 0; side < SIDES; side++)
        outcome[side].answer = list[side](held[side][SLOT_PROGRAM], program.length, tables_held(side), tables.length,
                                          cell, held[side][SLOT_OUTPUT], output.length, &outcome[side].out.count,
                                          &outcome[side].out.value);
    answer = conclude(XREF_LIST, outcome);
    compare_area(XREF_LIST, "program", SLOT_PROGRAM, program, false);
    compare_area(XREF_LIST, "tables", SLOT_TABLES, as_bytes(tables), false);
    compare_area(XREF_LIST, "addresses", SLOT_OUTPUT, output, may_write(XREF_LIST, answer));
    after.output = held[GALHOVEIA][SLOT_OUTPUT];
    return answer;
}

uint32_t pair_xref_replace(struct lent program, struct lent_tables tables, uint32_t address, uint16_t word)
{
    static __typeof__(galhoveia_xref_replace) *const replace[SIDES] = {galhoveia_xref_replace, second_xref_replace};
    struct outcome outcome[SIDES] = {{0, untouched}, {0, untouched}};
    uint32_t answer;

    give(SLOT_PROGRAM, program);
    give(SLOT_TABLES, as_bytes(tables));
    for (int side = 0; side < SIDES; side++)
        outcome[side].answer = replace[side](held[side][SLOT_PROGRAM], program.length, tables_held(side),
                                             tables.length, address, word, &outcome[side].out.value);
    answer = conclude(XREF_REPLACE, outcome);
    compare_area(XREF_REPLACE, "program", SLOT_PROGRAM, program, may_write(XREF_REPLACE, answer));
    compare_area(XREF_REPLACE, "tables", SLOT_TABLES, as_bytes(tables), may_write(XREF_REPLACE, answer));
    after.program = held[GALHOVEIA][SLOT_PROGRAM];
    after.tables = tables_held(GALHOVEIA);
    return answer;
}

void expect(const char *what, uint32_t answer, uint32_t number, uint64_t value)
{
    check(answer == number, "%s: answer %u, not %u", what, answer, number);
    check(after.value == value, "%s: value %llu, not %llu", what, (unsigned long long)after.value,
          (unsigned long long)value);
}
