/* How a stretch of quiet cycles was seen to end, whatever it was drawn for: told from the second emulator's machine
   before and after each event. */
#include "compare_stretches.h"

#include <inttypes.h>
#include <stdio.h>

/* ---- The ways ---- */

enum { AWAKE_ONLY = 1, ASLEEP_ONLY = 2, BOTH = 3 };

static const struct {
    const char *name;
    int possible;
} ways[WAYS] = {
    [BY_OVERFLOW] = {"overflow, ratio 2048", BOTH}, {"overflow, ratio 512", BOTH}, {"overflow, ratio 128", BOTH},
    {"overflow, ratio 32", BOTH}, {"overflow, ratio 8", BOTH}, {"overflow, ratio 4", BOTH},
    {"overflow, ratio 2", BOTH},
    {"overflow with reload, ratio 2048", BOTH}, {"overflow with reload, ratio 512", BOTH},
    {"overflow with reload, ratio 128", BOTH}, {"overflow with reload, ratio 32", BOTH},
    {"overflow with reload, ratio 8", BOTH}, {"overflow with reload, ratio 4", BOTH},
    {"overflow with reload, ratio 2", BOTH},
    [BY_PIN_COUNT] = {"edge counted by Timer0", BOTH}, [BY_PIN_OVERFLOW] = {"overflow by an edge", BOTH},
    [DUE_BY_OVERFLOW] = {"interrupt due by an overflow", BOTH},
    [DUE_BY_PIN_OVERFLOW] = {"interrupt due by an overflow by an edge", BOTH},
    [DUE_BY_EXTERNAL] = {"interrupt due by PA0", BOTH}, [DUE_BY_PORT_B] = {"interrupt due by port B", BOTH},
    [DUE_BY_PORT_C] = {"interrupt due by port C", BOTH}, [DUE_BY_BASE] = {"interrupt due by the base timer", BOTH},
    [DUE_BY_000] = {"interrupt due by a write to $000", AWAKE_ONLY},
    [DUE_BY_001] = {"interrupt due by a write to $001", AWAKE_ONLY},
    [BY_PINS_A] = {"pins of port A", BOTH}, [BY_PINS_B] = {"pins of port B", BOTH},
    [BY_PINS_C] = {"pins of port C", BOTH}, [BY_PINS_D] = {"pins of port D", BOTH},
    [BY_BASE_PULSE] = {"base timer's pulse", BOTH}, [BY_WATCHDOG_PULSE] = {"watchdog's pulse", BOTH},
    [BY_WATCHDOG_RESET] = {"watchdog's reset", BOTH}, [BY_PIN_RESET] = {"reset pin", BOTH},
    [BY_SOUND_CLOCK] = {"sound clock", BOTH},
    [BY_UNLISTED] = {"unlisted word", AWAKE_ONLY},
    [STOP_BY_GOING_ON] = {"stop address by going on", AWAKE_ONLY},
    [STOP_BY_BRANCH] = {"stop address by a branch", AWAKE_ONLY},
    [STOP_BY_CALL] = {"stop address by CALL", AWAKE_ONLY}, [STOP_BY_RTNI] = {"stop address by RTNI", AWAKE_ONLY},
    [STOP_BY_RTNW] = {"stop address by RTNW", AWAKE_ONLY}, [STOP_BY_TJMP] = {"stop address by TJMP", AWAKE_ONLY},
    [STOP_BY_INTERRUPT] = {"stop address by an interrupt's entry", BOTH},
    [STOP_AND_DUE] = {"stop address, as an interrupt becomes due", AWAKE_ONLY},
    [STOP_FROM_THE_START] = {"stop address from the start", ASLEEP_ONLY},
    [BY_HALT] = {"HALT", AWAKE_ONLY}, [BY_STOP] = {"STOP", AWAKE_ONLY},
    [BY_ROM_READ] = {"write to $01A, a ROM read", AWAKE_ONLY},
    [BY_ROM_READ_AND_HALT] = {"write to $01A and HALT", AWAKE_ONLY},
    [BY_WRITE_002] = {"write to $002", AWAKE_ONLY}, [BY_WRITE_003] = {"write to $003", AWAKE_ONLY},
    [BY_WRITE_004] = {"write to $004", AWAKE_ONLY}, [BY_WRITE_005] = {"write to $005", AWAKE_ONLY},
    [BY_RELEASING_005] = {"write to $005, a nibble frozen", AWAKE_ONLY},
    [BY_WRITE_01E] = {"write to $01E", AWAKE_ONLY}, [BY_READ_004] = {"read of $004, live", AWAKE_ONLY},
    [BY_READ_005] = {"read of $005", AWAKE_ONLY}, [BY_FROZEN_READ_004] = {"read of $004, frozen", AWAKE_ONLY},
    [BY_FROZEN_READ_005] = {"read of $005, a nibble frozen already", AWAKE_ONLY},
    [BY_BOTH_HALVES] = {"read of $005 and then of $004", AWAKE_ONLY}, [BY_READ_01E] = {"read of $01E", AWAKE_ONLY},
    [BY_OTHER_CELL] = {"sound cell, or none", AWAKE_ONLY},
    [BY_DECIMAL_ON_REGISTER] = {"DAA or DAS on a register", AWAKE_ONLY},
    [BY_END] = {"script's end", BOTH}, [END_BEFORE_OVERFLOW] = {"script's end, one before the overflow", BOTH},
    [END_AT_OVERFLOW] = {"script's end, at the overflow", BOTH},
    [END_AFTER_OVERFLOW] = {"script's end, one after the overflow", BOTH},
    [SCRIPT_OF_NONE] = {"script of no event", BOTH}, [SCRIPT_OF_ONE] = {"script of one event", BOTH},
    [SCRIPT_OF_TWO] = {"script of two events", BOTH},
};

static uint64_t met[WAYS][2][2]; /* awake or asleep, without sound clocks or sounding */
static uint64_t longest, sounded_most;

/* A sound clock that ends a stretch is its first. */
bool is_possible(enum way way, bool asleep, bool sounding)
{
    return (ways[way].possible & (asleep ? ASLEEP_ONLY : AWAKE_ONLY)) && !(sounding && way == BY_SOUND_CLOCK);
}

static void tell_way(enum way way)
{
    printf("  %-44s", ways[way].name);
    for (int kind = 0; kind < 4; kind++)
        if (is_possible(way, kind & 1, kind & 2))
            printf(" %9" PRIu64, met[way][kind & 1][kind >> 1]);
        else
            printf(" %9s", "-");
    printf("\n");
    for (int kind = 0; kind < 4; kind++)
        if (is_possible(way, kind & 1, kind & 2))
            check(met[way][kind & 1][kind >> 1] > 0, "no %sstretch %s ended by: %s", kind & 2 ? "sounding " : "",
                  kind & 1 ? "in HALT" : "awake", ways[way].name);
}

void tell_ways(void)
{
    printf("  %-44s %9s %9s %9s %9s\n", "stretches of quiet cycles ended by", "awake", "in HALT", "sounding", "in HALT");
    for (enum way way = 0; way < WAYS; way++)
        tell_way(way);
    printf("  %-44s %9" PRIu64 "\n", "quiet cycles in the longest", longest);
    printf("  %-44s %9" PRIu64 "\n", "sound clocks in the one with most", sounded_most);
    check(sounded_most > QUIET_LEAST, "only %" PRIu64 " sound clocks in a stretch", sounded_most);
}

/* ---- One run ---- */

#define NEVER (UINT64_MAX / 2)

/* Sound clocks are not counted among the events. */
static uint64_t at, quiet;                  /* this event, and the quiet cycles right before it */
static uint64_t long_ended_at, overflow_at; /* the event behind the one that ended a long stretch, or behind its overflow */
static uint64_t frozen_at;                  /* the event behind the last read of $005 */
static uint64_t sounded;                    /* sound clocks so far */
static bool ended, begun_asleep;

static void meet(enum way way, bool asleep)
{
    met[way][asleep][sounded > 0]++;
}

static void mark(enum way way, bool asleep)
{
    ended = true;
    if (quiet >= QUIET_LEAST)
        meet(way, asleep);
}

/* What comes right after the event that ended a stretch. */
static void mark_late(enum way way, bool asleep)
{
    ended = true;
    if (long_ended_at == at)
        meet(way, asleep);
}

static unsigned due(const struct second_machine *m)
{
    return m->cell[0] & m->cell[1];
}

static bool is_at_overflow(const struct second_machine *m)
{
    return (m->cell[2] & SOURCE_BITS) != PIN_SOURCE && m->timer0_counter == 255
           && m->timer0_prescaler == ratio_of(m->cell[2]) - 1;
}

static void see_pins(const struct second_machine *before, const struct second_machine *now, unsigned port)
{
    bool asleep = before->mode == SECOND_HALT, falls = before->pins[0] & ~now->pins[0] & ~before->cell[PACR] & 1;

    mark(BY_PINS_A + port, asleep);
    if (falls && (before->cell[2] & SOURCE_BITS) == PIN_SOURCE)
        mark(before->timer0_counter == 255 ? BY_PIN_OVERFLOW : BY_PIN_COUNT, asleep);
    if (due(before))
        return;
    if (due(now) & EXTERNAL)
        mark(DUE_BY_EXTERNAL, asleep);
    if (due(now) & TIMER0)
        mark(DUE_BY_PIN_OVERFLOW, asleep);
    if (due(now) & PORT)
        mark(port == 1 ? DUE_BY_PORT_B : DUE_BY_PORT_C, asleep);
}

static void see_pulse(const struct second_machine *before, const struct second_machine *now, uint8_t event)
{
    bool asleep = before->mode == SECOND_HALT;

    if (event == RESET_PIN)
        mark(BY_PIN_RESET, asleep);
    else if (event == WATCHDOG_PULSE)
        mark((before->options & 1) && before->watchdog == 1 ? BY_WATCHDOG_RESET : BY_WATCHDOG_PULSE, asleep);
    else
        mark(!due(before) && due(now) ? DUE_BY_BASE : BY_BASE_PULSE, asleep);
}

static void see_read(unsigned cell, bool frozen)
{
    if (cell == 0x004 || cell == 0x005)
        mark((frozen ? BY_FROZEN_READ_004 : BY_READ_004) + (cell - 0x004), false);
    else if (cell == 0x01E)
        mark(BY_READ_01E, false);
    if (cell == 0x004 && frozen && frozen_at == at)
        mark_late(BY_BOTH_HALVES, false);
    if (cell == 0x005)
        frozen_at = at + 1;
}

static void see_write(unsigned cell, bool frozen, bool now_due)
{
    if (cell == 0x005 && frozen)
        mark(BY_RELEASING_005, false);
    if (cell <= 0x001 && now_due)
        mark(DUE_BY_000 + cell, false);
    else if (0x002 <= cell && cell <= 0x005)
        mark(BY_WRITE_002 + (cell - 0x002), false);
    else if (cell == 0x01A)
        mark(BY_ROM_READ, false);
    else if (cell == 0x01E)
        mark(BY_WRITE_01E, false);
}

static unsigned next_of(unsigned pc)
{
    return (pc & PAGE) | ((pc + 1) & (PAGE - 1));
}

static enum way stop_by(uint16_t word, bool goes_on)
{
    if (word >> 11 == 24)
        return STOP_BY_CALL;
    if (word >> 8 == 0xD0)
        return STOP_BY_RTNW;
    if (word == RTNI_WORD)
        return STOP_BY_RTNI;
    if (word == TJMP_WORD)
        return STOP_BY_TJMP;
    return goes_on ? STOP_BY_GOING_ON : STOP_BY_BRANCH;
}

static void see_word(const struct second_machine *before, const struct second_machine *now, uint16_t word)
{
    struct touch touch = touch_of(word, pointer_of(before->cell));
    unsigned code = word >> 11;

    if (code == 27)
        mark(word == HALT_WORD ? BY_HALT : BY_STOP, false);
    if (touch.reads || touch.writes) {
        if (touch.reads)
            see_read(touch.cell, before->frozen_mark);
        if (touch.writes)
            see_write(touch.cell, before->frozen_mark, due(now));
        if (touch.cell >= 0x020 && !is_askable(touch.cell))
            mark(BY_OTHER_CELL, false);
        if (touch.cell < 0x020 && code == 25)
            mark(BY_DECIMAL_ON_REGISTER, false);
    }
    if (now->pc == drawn.stop)
        mark(due(now) ? STOP_AND_DUE : stop_by(word, now->pc == next_of(before->pc)), false);
}

static void see_cycle(const struct second_machine *before, const struct second_machine *now)
{
    bool asleep = before->mode == SECOND_HALT;
    uint16_t word = (uint16_t)two(drawn.program + 2 * before->pc);

    ended = before->mode == SECOND_STOP || before->pending || due(before);
    if (due(before)) {
        if (now->pc == drawn.stop)
            mark_late(STOP_BY_INTERRUPT, asleep);
    } else if (asleep) {
        if (begun_asleep && now->pc == drawn.stop)
            meet(STOP_FROM_THE_START, true);
    } else if (before->pending) {
        if (word == HALT_WORD)
            mark_late(BY_ROM_READ_AND_HALT, false);
    } else if (before->mode == SECOND_RUNNING) {
        see_word(before, now, word);
    }
    if (!ended && is_at_overflow(before)) {
        unsigned source = before->cell[2] & SOURCE_BITS;

        if (quiet >= QUIET_LEAST)
            overflow_at = at + 1;
        mark(BY_OVERFLOW + (before->cell[2] & RELOAD_BIT ? RATIOS : 0) + source, asleep);
        if (due(now))
            mark(DUE_BY_OVERFLOW, asleep);
    }
}

void watch_begins(void)
{
    at = quiet = sounded = 0;
    long_ended_at = overflow_at = frozen_at = NEVER;
    begun_asleep = drawn.start.record[R_MODE] == IN_HALT;
}

static void see_sound_clock(const struct second_machine *now)
{
    if (sounded == 0 && quiet >= QUIET_LEAST)
        meet(BY_SOUND_CLOCK, now->mode == SECOND_HALT);
    sounded++;
    if (quiet > 0 && sounded > sounded_most)
        sounded_most = sounded;
}

void watch_event(const struct second_machine *before, const struct second_machine *now, uint8_t event)
{
    if (event == SOUND_CLOCK) {
        see_sound_clock(now);
        return;
    }
    ended = false;
    if (event == CYCLE)
        see_cycle(before, now);
    else if (event >= PINS_A)
        see_pins(before, now, (event >> 4) - 1u);
    else
        see_pulse(before, now, event);
    at++;
    if (ended && quiet >= QUIET_LEAST)
        long_ended_at = at;
    quiet = ended ? 0 : quiet + 1;
    if (quiet > longest)
        longest = quiet;
}

void watch_ends(const struct second_machine *now, enum second_reason reason)
{
    bool asleep = now->mode == SECOND_HALT;

    if (reason == SECOND_AT_UNLISTED)
        mark(BY_UNLISTED, false);
    if (reason != SECOND_AT_END || now->mode == SECOND_STOP)
        return;
    if (at <= 2)
        meet(SCRIPT_OF_NONE + (enum way)at, asleep);
    else
        mark(is_at_overflow(now) ? END_BEFORE_OVERFLOW : BY_END, asleep);
    if (overflow_at == at)
        meet(END_AT_OVERFLOW, asleep);
    if (overflow_at + 1 == at)
        meet(END_AFTER_OVERFLOW, asleep);
}
