/* Two cars over one program and one wiring (02, P5): every refusal in its order, then the script entry by entry. */
#include "judging.h"
#include "second.h"

enum { CARS = 2, ENTRY_BYTES = 2, ELEMENT_BYTES = 3, KIND_WIRING = 2 };
enum {
    DONE = 0, PROGRAM_LENGTH = 1, MEMORY_LENGTH = 2, RECORD = 4, UNKNOWN_EVENT = 5, ROOM = 7, LENGTH = 10, BODY = 11,
    NO_CAR = 27, CUT_ENTRY = 28
};

struct car {
    uint8_t *memory;
    size_t memory_len;
    uint8_t *record;
    size_t record_len;
    uint8_t *picture;
    size_t room;
    uint32_t stop;
    struct second_machine machine;
    enum second_reason reason; /* SECOND_AT_END as long as it takes entries */
};

/* ---- Judging ---- */

/* 2, 3 and 4. A number is judged of both cars before the next one is. The machines are filled in on the way. */
static uint32_t judge_cars(struct car car[CARS], uint64_t *value)
{
    for (int at = 0; at < CARS; at++)
        if (car[at].memory_len != SECOND_CELLS)
            return answer(value, MEMORY_LENGTH, car[at].memory_len);
    for (int at = 0; at < CARS; at++) {
        uint32_t refusal = second_judge_memory(car[at].memory, car[at].memory_len, value);

        if (refusal != DONE)
            return refusal;
    }
    for (int at = 0; at < CARS; at++) {
        if (car[at].record_len != SECOND_RECORD_BYTES)
            return answer(value, RECORD, 0);
        second_unpack(&car[at].machine, car[at].memory, car[at].record);
        if (!second_is_well_formed(&car[at].machine))
            return answer(value, RECORD, 0);
    }
    return answer(value, DONE, 0);
}

/* 5 of every whole entry, whatever its car byte. */
static uint32_t judge_events(const uint8_t *script, size_t script_len, uint64_t *value)
{
    for (size_t place = 1; place < script_len; place += ENTRY_BYTES)
        if (!second_is_known(script[place]))
            return answer(value, UNKNOWN_EVENT, place);
    return answer(value, DONE, 0);
}

/* 27, of a lone byte at the end too, then 28. */
static uint32_t judge_entries(const uint8_t *script, size_t script_len, uint64_t *value)
{
    for (size_t place = 0; place < script_len; place += ENTRY_BYTES)
        if (script[place] >= CARS)
            return answer(value, NO_CAR, place);
    if (script_len % ENTRY_BYTES != 0)
        return answer(value, CUT_ENTRY, script_len - 1);
    return answer(value, DONE, 0);
}

/* ---- Running ---- */

static bool has_stopped(const struct car *car)
{
    return car->reason != SECOND_AT_END;
}

/* A run of one event tells whether the car stops at it. */
static void take(struct car *car, const uint8_t *program, uint8_t event)
{
    uint64_t done;

    if (!has_stopped(car))
        car->reason = second_run_machine(&car->machine, program, &event, 1, car->stop, &done);
}

static void give_back(struct car *car, const uint8_t *wiring, size_t wiring_len)
{
    uint64_t count, value;

    second_pack(&car->machine, car->memory, car->record);
    (void)second_picture(car->memory, car->memory_len, car->record, car->record_len, wiring, wiring_len, car->picture,
                         car->room, &count, &value);
}

uint32_t second_run_two(const uint8_t *program, size_t program_len, const uint8_t *wiring, size_t wiring_len,
                        uint8_t *memory0, size_t memory0_len, uint8_t *record0, size_t record0_len,
                        uint8_t *picture0, size_t room0,
                        uint8_t *memory1, size_t memory1_len, uint8_t *record1, size_t record1_len,
                        uint8_t *picture1, size_t room1,
                        const uint8_t *script, size_t script_len, uint32_t stop0, uint32_t stop1,
                        uint32_t *reason0, uint32_t *reason1, uint64_t *entries, uint64_t *value)
{
    struct car car[CARS] = {
        {memory0, memory0_len, record0, record0_len, picture0, room0, stop0, {0}, SECOND_AT_END},
        {memory1, memory1_len, record1, record1_len, picture1, room1, stop1, {0}, SECOND_AT_END}};
    const size_t elements = wiring_len / ELEMENT_BYTES;
    size_t passed = 0;
    uint32_t refusal;

    if (program_len != SECOND_PROGRAM_BYTES)
        return answer(value, PROGRAM_LENGTH, program_len);
    refusal = judge_cars(car, value);
    if (refusal != DONE)
        return refusal;
    refusal = judge_events(script, script_len, value);
    if (refusal != DONE)
        return refusal;
    if (!second_is_wiring_length(wiring_len))
        return answer(value, LENGTH, 0);
    if (!second_is_good_wiring(wiring, wiring_len))
        return answer(value, BODY, KIND_WIRING);
    refusal = judge_entries(script, script_len, value);
    if (refusal != DONE)
        return refusal;
    for (int at = 0; at < CARS; at++)
        if (car[at].room < elements)
            return answer(value, ROOM, elements);

    while (passed < script_len / ENTRY_BYTES && !(has_stopped(&car[0]) && has_stopped(&car[1]))) {
        const uint8_t *entry = script + ENTRY_BYTES * passed;

        take(&car[entry[0]], program, entry[1]);
        passed++;
    }
    for (int at = 0; at < CARS; at++)
        give_back(&car[at], wiring, wiring_len);
    *reason0 = car[0].reason;
    *reason1 = car[1].reason;
    *entries = passed;
    return answer(value, DONE, 0);
}
