/* Stretches of quiet cycles with an end put to them, and with Timer0 set so that it overflows where it is wanted. */
#include "compare_stretches.h"

#include <string.h>

enum {
    SHORT_MOST = 2, NUMBER_LEAST = QUIET_LEAST + 3, NUMBER_SPREAD = 160, SPREADS = 6, SOUNDING_SPREADS = 3,
    ROUTINE_MOST = 512, AFTER_MOST = 400, CLOCKS_TO_A_CYCLE = 4, CLOCKS_SPREAD = 20, APART_MOST = 30
};

struct stretch drawn;

/* ---- Timer0 ---- */

/* From a source, at the start of its count. */
static void set_timer0(unsigned source, bool reload)
{
    drawn.start.memory[0x002] = (uint8_t)(source | (reload ? RELOAD_BIT : 0));
    drawn.start.record[R_T0_COUNTER] = 0;
    set_two(drawn.start.record + R_T0_PRESCALER, 0);
}

static unsigned clocks_most(void)
{
    return 256 * ratio_of(drawn.start.memory[0x002]);
}

/* The clock with this number, counted from 1, is to overflow. */
static void overflow_at(size_t clock)
{
    unsigned ratio = ratio_of(drawn.start.memory[0x002]), counted = clocks_most() - (unsigned)clock;

    drawn.start.record[R_T0_COUNTER] = (uint8_t)(counted / ratio);
    set_two(drawn.start.record + R_T0_PRESCALER, counted % ratio);
}

/* ---- A stretch ---- */

static bool is_by_timer0(enum way way)
{
    return way < BY_OVERFLOW + 2 * RATIOS || way == DUE_BY_OVERFLOW || way == END_BEFORE_OVERFLOW
           || way == END_AT_OVERFLOW || way == END_AFTER_OVERFLOW;
}

static bool is_by_end(enum way way)
{
    return way >= BY_END;
}

/* What must be enabled for an end; never all, so that a request can stand that is not. */
static unsigned any_enabled(enum way way)
{
    static const uint8_t needed[WAYS] = {
        [DUE_BY_OVERFLOW] = TIMER0, [DUE_BY_PIN_OVERFLOW] = TIMER0, [DUE_BY_EXTERNAL] = EXTERNAL,
        [DUE_BY_PORT_B] = PORT, [DUE_BY_PORT_C] = PORT, [DUE_BY_BASE] = BASE,
        [STOP_BY_INTERRUPT] = EXTERNAL | PORT | BASE};
    unsigned enabled;

    do
        enabled = any(15) | needed[way];
    while (enabled == 0 || enabled == 15 || (is_by_end(way) && (enabled & TIMER0)));
    return enabled;
}

static void ends_by_timer0(enum way way, size_t number)
{
    if (way < BY_OVERFLOW + 2 * RATIOS)
        set_timer0((way - BY_OVERFLOW) % RATIOS, way - BY_OVERFLOW >= RATIOS);
    else
        set_timer0(any(RATIOS), any(2));
    if (number >= clocks_most())
        number = NUMBER_LEAST + any(clocks_most() - NUMBER_LEAST);
    cycles(number);
    overflow_at(way == END_BEFORE_OVERFLOW ? number + 1 : way == END_AFTER_OVERFLOW ? number - 1 : number);
    if (way == DUE_BY_OVERFLOW && any(2))
        stop_by_entry(TIMER0);
}

/* A source that does not overflow in so many cycles by itself. */
static unsigned any_source(enum way way, size_t number, bool beside)
{
    unsigned source;

    if (way == BY_PIN_COUNT || way == BY_PIN_OVERFLOW || way == DUE_BY_PIN_OVERFLOW)
        return PIN_SOURCE;
    do
        source = any(beside ? RATIOS : RATIOS + 1);
    while (source != PIN_SOURCE && 256 * ratio_of((uint8_t)source) < number + ROUTINE_MOST);
    return source;
}

static void ends_otherwise(enum way way, bool asleep, bool beside, size_t number)
{
    size_t quiet;

    set_timer0(any_source(way, number, beside), any(2));
    if (asleep || number <= SHORT_MOST)
        cycles(number);
    else
        goes_on(number);
    quiet = drawn.length;
    put_end(way, asleep);
    if ((drawn.start.memory[0x002] & SOURCE_BITS) == PIN_SOURCE)
        return;
    if (beside)
        overflow_at((quiet > 1 ? quiet - 1 : 1) + any((uint32_t)(drawn.length - quiet) + 3));
    else
        overflow_at(drawn.length + 1 + any(clocks_most() - (uint32_t)drawn.length - 1));
}

/* No stop address, or one that is not come to. */
static uint32_t any_other_stop(void)
{
    switch (any(3)) {
    case 0:
        return drawn.page | (PAGE - 1);
    case 1:
        return NO_STOP;
    default:
        return (uint32_t)any_64() | NO_STOP;
    }
}

static void falls_asleep(bool at_once)
{
    if (at_once)
        drawn.start.record[R_MODE] = IN_HALT;
    else
        put(drawn.page | MAIN, HALT_WORD);
}

/* ---- Sound clocks ---- */

/* Before the first event and after each: as an oscillator gives them, or some now and then. */
static void put_sound_clocks(void)
{
    static uint8_t without[SCRIPT_ROOM];
    size_t events = drawn.length;
    unsigned apart = any(2) ? 1 : 1 + any(APART_MOST);

    memcpy(without, drawn.script, events);
    drawn.length = 0;
    happens(SOUND_CLOCK);
    for (size_t at = 0; at < events; at++) {
        unsigned clocks = apart == 1 ? CLOCKS_TO_A_CYCLE : any(apart) == 0 ? 1 + any(CLOCKS_SPREAD) : 0;

        happens(without[at]);
        while (clocks-- > 0)
            happens(SOUND_CLOCK);
    }
}

/* ---- All together ---- */

void draw_stretch(enum way way, bool asleep, bool beside, bool sounding)
{
    size_t number = NUMBER_LEAST + any(NUMBER_SPREAD << any(sounding ? SOUNDING_SPREADS : SPREADS));
    bool is_short = way >= SCRIPT_OF_NONE;

    draw_quiet(any_enabled(way));
    drawn.stop = any_other_stop();
    if (asleep)
        falls_asleep(is_short || way == STOP_FROM_THE_START || any(2));
    if (way == STOP_FROM_THE_START) {
        drawn.stop = drawn.page | MAIN;
        for (unsigned event = any(4); event > 0; event--)
            happens((uint8_t)(PINS_D + any(16)));
    }
    if (is_short)
        number = way - SCRIPT_OF_NONE;
    if (is_by_timer0(way))
        ends_by_timer0(way, number);
    else
        ends_otherwise(way, asleep, beside, number);
    if (!is_by_end(way))
        cycles(any(2) ? any(3) : any(AFTER_MOST));
    if (sounding)
        put_sound_clocks();
}
