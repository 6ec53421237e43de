/* Random events on random machines and programs. Each script goes through galhoveia's run, the second emulator's run,
   and the second emulator's machine event by event, which also counts what happened; on some machines also through
   both emulators' single steps. All must come to the same answers and the same bytes. */
#include "compare.h"
#include "result.h"
#include "support.h"

#include "../desk/galhoveia.h"
#include "../second/second.h"

#include <inttypes.h>
#include <stdio.h>
#include <string.h>

enum { SCRIPT_LEAST = 200, SCRIPT_MOST = 1600, STEPPED_ONE_IN = 16, MACHINES_ON_ONE_PROGRAM = 8 };
enum { EXTERNAL = 8, TIMER0 = 4, BASE = 2, PORT = 1 };
enum { REACHES = 2, CODES = 32 };

static uint8_t program[PROGRAM_BYTES];

/* ---- What happened ---- */

enum happening {
    DONE_EVENTS, CYCLES, AWAKE, ASLEEP_HALT, ASLEEP_STOP, WOKEN_HALT, WOKEN_STOP, INTERRUPT_EXTERNAL, INTERRUPT_TIMER0,
    INTERRUPT_BASE, INTERRUPT_PORT, REQUEST_EXTERNAL, REQUEST_TIMER0, REQUEST_BASE, REQUEST_PORT, PIN_COUNTED,
    RELOADED, READ_ASKED, READ_LANDED, READ_ASKED_WHILE_LANDING, WATCHDOG_RESET, PIN_RESET, WATCHDOG_RESTARTED,
    ENTRY_DROPPED, THROUGH_POINTER, POINTER_AT_REGISTER, SOUND_CLOCKS, SOUND_IN_HALT, SOUND_IN_STOP,
    RAN, /* what follows is of channel 1, then of channel 2 */
    TURNED = RAN + CHANNELS, SET = TURNED + CHANNELS, SET_BY_OCTAVE = SET + CHANNELS,
    HELD_OFF = SET_BY_OCTAVE + CHANNELS, HELD_SILENT = HELD_OFF + CHANNELS,
    HELD_BY_MODE = HELD_SILENT + CHANNELS, RAN_IN_C1M,
    HIGH_READ, /* what follows is by the cell's name, then through $00F */
    HIGH_READ_AGAIN = HIGH_READ + REACHES, LOW_READ_LIVE = HIGH_READ_AGAIN + REACHES,
    LOW_READ_FROZEN = LOW_READ_LIVE + REACHES, LOW_READ_GONE_ON = LOW_READ_FROZEN + REACHES,
    LOW_READ_0 = LOW_READ_GONE_ON + REACHES, RELEASED = LOW_READ_0 + REACHES,
    RELEASED_BY_PIN_RESET = RELEASED + REACHES, RELEASED_BY_WATCHDOG, KEPT_OVER_002, KEPT_OVER_004, KEPT_OVER_OVERFLOW,
    KEPT_OVER_INTERRUPT, KEPT_IN_HALT, KEPT_IN_STOP,
    STOPPED_AT_ADDRESS, BEFORE_UNLISTED, AT_SCRIPT_END, HAPPENINGS
};

static const char *const happening_name[HAPPENINGS] = {
    "events", "cycles", "instructions", "cycles asleep in HALT", "cycles asleep in STOP", "wakes from HALT",
    "wakes from STOP", "interrupts: external", "interrupts: Timer0", "interrupts: base", "interrupts: port",
    "new requests: external", "new requests: Timer0 (overflow)", "new requests: base (overflow)",
    "new requests: port", "edges counted by Timer0", "Timer0 overflows with load", "reads asked for", "reads landed",
    "reads asked for while one lands", "watchdog resets", "pin resets", "watchdog restarted by $01E",
    "stack entries dropped", "instructions through $00F", "  of these at a register", "sound clocks",
    "sound clocks in HALT", "sound clocks in STOP", "sound clocks of channel 1 that runs",
    "sound clocks of channel 2 that runs", "turns of channel 1", "turns of channel 2", "counts of channel 1 set anew",
    "counts of channel 2 set anew", "  of channel 1 by the octave bit", "  of channel 2 by the octave bit",
    "channel 1 held: disabled", "channel 2 held: disabled", "channel 1 held: value 0", "channel 2 held: value 0",
    "channel 2 held: C1M or C2M", "channel 1 runs with C1M", "reads of $005", "reads of $005 through $00F",
    "  one frozen already", "  one frozen already, through $00F", "reads of $004, live",
    "reads of $004, live, through $00F", "reads of $004, frozen", "reads of $004, frozen, through $00F",
    "  the counter gone on", "  the counter gone on, through $00F", "  as 0, the counter gone on",
    "  as 0, the same, through $00F", "released by a write of $005", "released by a write through $00F",
    "released by the reset pin", "released by the watchdog's reset", "frozen over a write of $002",
    "frozen over a write of $004 alone", "frozen over an overflow", "frozen over an interrupt",
    "frozen over a cycle asleep in HALT", "frozen over a cycle asleep in STOP", "runs stopped at an address",
    "runs stopped by an unlisted word", "runs ended by the script"};

static uint64_t happened[HAPPENINGS];
static uint64_t executed_code[CODES]; /* by bits 15-11 */
static uint64_t halves_read_by[CODES]; /* reads of $004 and $005 */

/* What the counting needs of the machine before an event. */
struct glimpse {
    uint16_t pc, watchdog, oldest;
    uint8_t mode, pending, timer0_counter, options;
    uint8_t enabled, requested;
    uint8_t frozen, frozen_mark;
    uint16_t pointer;
    struct second_tone tone[CHANNELS];
};

static struct glimpse glimpse_of(const struct second_machine *m)
{
    return (struct glimpse){m->pc, m->watchdog, m->stack[7], m->mode, m->pending, m->timer0_counter, m->options,
                            m->cell[0], m->cell[1], m->frozen, m->frozen_mark, (uint16_t)pointer_of(m->cell),
                            {m->tone[0], m->tone[1]}};
}

/* What a word does with the halves of Timer0's counter, and with a nibble that is frozen. */
static void count_halves(const struct glimpse *before, unsigned code, struct touch touch)
{
    bool through = touch.through_pointer, frozen = before->frozen_mark;
    bool gone_on = frozen && before->frozen != before->timer0_counter % 16;

    if (touch.reads && touch.cell == 0x005) {
        happened[HIGH_READ + through]++;
        happened[HIGH_READ_AGAIN + through] += frozen;
        halves_read_by[code]++;
    }
    if (touch.reads && touch.cell == 0x004) {
        happened[(frozen ? LOW_READ_FROZEN : LOW_READ_LIVE) + through]++;
        happened[LOW_READ_GONE_ON + through] += gone_on;
        happened[LOW_READ_0 + through] += gone_on && before->frozen == 0;
        halves_read_by[code]++;
    }
    if (touch.writes && frozen) {
        happened[RELEASED + through] += touch.cell == 0x005;
        happened[KEPT_OVER_002] += touch.cell == 0x002;
        happened[KEPT_OVER_004] += touch.cell == 0x004 && !touch.reads;
    }
}

static void count_cycle(const struct glimpse *before, const struct second_machine *now)
{
    unsigned requests = before->enabled & before->requested;
    bool idle = before->mode == SECOND_STOP && !(requests & (EXTERNAL | PORT));

    happened[CYCLES]++;
    if (idle) {
        happened[ASLEEP_STOP]++;
        happened[KEPT_IN_STOP] += now->frozen_mark;
        return;
    }
    happened[READ_LANDED] += before->pending;
    happened[READ_ASKED] += now->pending;
    happened[READ_ASKED_WHILE_LANDING] += before->pending && now->pending;
    happened[RELOADED] += before->timer0_counter == 255 && now->timer0_counter == now->timer0_load
                          && (now->cell[2] & 8) && (now->cell[1] & TIMER0);
    if (requests) {
        happened[WOKEN_HALT] += before->mode == SECOND_HALT;
        happened[WOKEN_STOP] += before->mode == SECOND_STOP;
        happened[INTERRUPT_EXTERNAL + now->pc - 1]++;
        happened[ENTRY_DROPPED] += before->oldest != 0;
        happened[KEPT_OVER_INTERRUPT] += now->frozen_mark;
    } else if (before->mode == SECOND_HALT) {
        happened[ASLEEP_HALT]++;
        happened[KEPT_IN_HALT] += now->frozen_mark;
    } else {
        uint16_t word = (uint16_t)two(program + 2 * before->pc);
        struct touch touch = touch_of(word, before->pointer);

        happened[AWAKE]++;
        executed_code[word >> 11]++;
        happened[ENTRY_DROPPED] += word >> 11 == 24 && before->oldest != 0;
        happened[THROUGH_POINTER] += touch.through_pointer;
        happened[POINTER_AT_REGISTER] += touch.through_pointer && touch.cell < 0x020;
        happened[WATCHDOG_RESTARTED] += now->watchdog > before->watchdog;
        count_halves(before, word >> 11, touch);
    }
}

/* Whether a channel ran is told by what moved, why it did not by the registers, which a sound clock leaves. */
static void count_channel(const struct glimpse *before, const struct second_machine *now, int channel)
{
    const struct second_tone *was = &before->tone[channel], *is = &now->tone[channel];
    const uint8_t *tone = now->cell + (channel == 0 ? 0x371 : 0x375);
    bool turned = is->output != was->output, ran = turned || is->count != was->count;

    happened[RAN + channel] += ran;
    happened[TURNED + channel] += turned;
    happened[SET + channel] += ran && was->count == 0;
    happened[SET_BY_OCTAVE + channel] += ran && was->count == 0 && (tone[1] & 8);
    happened[RAN_IN_C1M] += ran && channel == 0 && (now->cell[0x370] & 1);
    if (ran)
        return;
    if (!(now->cell[0x377] >> channel & 1))
        happened[HELD_OFF + channel]++;
    else if (tone[0] == 0 && (tone[1] & 7) == 0)
        happened[HELD_SILENT + channel]++;
    else
        happened[HELD_BY_MODE] += channel == 1 && (now->cell[0x370] & 3);
}

static void count_sound(const struct glimpse *before, const struct second_machine *now)
{
    happened[SOUND_CLOCKS]++;
    happened[SOUND_IN_HALT] += before->mode == SECOND_HALT;
    if (before->mode == SECOND_STOP) {
        happened[SOUND_IN_STOP]++;
        return;
    }
    for (int channel = 0; channel < CHANNELS; channel++)
        count_channel(before, now, channel);
}

static void count_event(const struct glimpse *before, const struct second_machine *now, uint8_t event)
{
    unsigned fresh_requests = now->cell[1] & ~before->requested;
    bool watchdog_reset = event == WATCHDOG_PULSE && (before->options & 1) && before->watchdog == 1;
    bool overflow = (fresh_requests & TIMER0) && before->timer0_counter == 255;

    happened[DONE_EVENTS]++;
    if (event == CYCLE)
        count_cycle(before, now);
    else if (event == SOUND_CLOCK)
        count_sound(before, now);
    happened[WATCHDOG_RESET] += watchdog_reset;
    happened[RELEASED_BY_WATCHDOG] += watchdog_reset && before->frozen_mark;
    happened[PIN_RESET] += event == RESET_PIN;
    happened[RELEASED_BY_PIN_RESET] += event == RESET_PIN && before->frozen_mark;
    happened[REQUEST_EXTERNAL] += event >= PINS_A && (fresh_requests & EXTERNAL);
    happened[REQUEST_TIMER0] += overflow;
    happened[KEPT_OVER_OVERFLOW] += overflow && before->frozen_mark && now->frozen_mark;
    happened[REQUEST_BASE] += event == BASE_PULSE && (fresh_requests & BASE);
    happened[REQUEST_PORT] += event >= PINS_A && (fresh_requests & PORT);
    happened[PIN_COUNTED] += event >= PINS_A && now->timer0_counter != before->timer0_counter;
}

/* ---- One part of a script ---- */

typedef uint32_t steps(const uint8_t *, size_t, uint8_t *, size_t, uint8_t *, size_t, uint8_t, uint64_t *);

/* What a run must come to, put together from single steps (01, Events; docs/DECISIONS.md, readings 16 to 18). */
static struct result by_steps(steps *step, const struct machine *start, const uint8_t *script, size_t length,
                              uint32_t stop)
{
    struct result result = {0, AT_END, 0, 0, *start};

    while (result.events < length) {
        result.answer = step(program, PROGRAM_BYTES, result.machine.memory, MEMORY_BYTES, result.machine.record,
                             RECORD_BYTES, script[result.events], &result.value);
        if (result.answer != 0) {
            result.reason = AT_UNLISTED;
            break;
        }
        result.events++;
        if (script[result.events - 1] == CYCLE && two(result.machine.record + R_PC) == stop) {
            result.reason = AT_ADDRESS;
            break;
        }
    }
    return result;
}

/* The same from the second emulator's machine, unpacked once, which is quick enough to watch every event. */
static struct result by_watching(const struct machine *start, const uint8_t *script, size_t length, uint32_t stop)
{
    struct result result = {0, AT_END, 0, 0, *start};
    struct second_machine now;

    second_unpack(&now, start->memory, start->record);
    while (result.events < length) {
        uint8_t event = script[result.events];
        struct glimpse before = glimpse_of(&now);
        uint64_t done;

        if (second_run_machine(&now, program, &event, 1, NO_STOP, &done) == SECOND_AT_UNLISTED) {
            result.answer = 6;
            result.reason = AT_UNLISTED;
            result.value = now.pc;
            break;
        }
        count_event(&before, &now, event);
        result.events++;
        if (event == CYCLE && now.pc == stop) {
            result.reason = AT_ADDRESS;
            break;
        }
    }
    second_pack(&now, result.machine.memory, result.machine.record);
    return result;
}

/* ---- Machines ---- */

static uint32_t any_stop(void)
{
    switch (any(4)) {
    case 0:
        return any(WORDS);
    case 1:
        return any(8);
    case 2:
        return NO_STOP;
    default:
        return (uint32_t)any_64() | NO_STOP;
    }
}

static void one_machine(uint64_t number)
{
    static uint8_t script[SCRIPT_MOST], program_before[PROGRAM_BYTES];
    size_t length = SCRIPT_LEAST + any(SCRIPT_MOST - SCRIPT_LEAST), at = 0;
    uint64_t program_number = number / MACHINES_ON_ONE_PROGRAM;
    enum mix mix = program_number % 32 == 31 ? MIX_ANY : (enum mix)(program_number % MIX_ANY);
    bool stepped = any(STEPPED_ONE_IN) == 0;
    struct machine machine;

    if (number % MACHINES_ON_ONE_PROGRAM == 0) {
        random_program(program, mix);
        memcpy(program_before, program, sizeof program);
    }
    random_machine(&machine);
    random_script(script, length, mix);
    while (at < length) {
        size_t stretch = 1 + any((uint32_t)(any(4) ? (length - at + 7) / 8 : length - at));
        uint32_t stop = any_stop();
        struct result ours = by_run(galhoveia_run, program, &machine, script + at, stretch, stop);
        struct result second = by_run(second_run, program, &machine, script + at, stretch, stop);
        struct result watched = by_watching(&machine, script + at, stretch, stop);

        check(same(&ours, &second),
              "machine %" PRIu64 " at event %zu: run of %zu with stop %u: answer %u/%u, reason %u/%u, events %" PRIu64
              "/%" PRIu64, number, at, stretch, stop, ours.answer, second.answer, ours.reason, second.reason,
              ours.events, second.events);
        check(same(&second, &watched), "machine %" PRIu64 " at event %zu: the second run is not its events", number, at);
        if (stepped) {
            struct result our_steps = by_steps(galhoveia_step, &machine, script + at, stretch, stop);
            struct result second_steps = by_steps(second_step, &machine, script + at, stretch, stop);

            check(same(&our_steps, &ours), "machine %" PRIu64 " at event %zu: run is not its steps", number, at);
            check(same(&second_steps, &second), "machine %" PRIu64 " at event %zu: second run, steps", number, at);
            check(same(&our_steps, &second_steps), "machine %" PRIu64 " at event %zu: steps differ", number, at);
            reached[STEP][our_steps.answer < REFUSALS ? our_steps.answer : 0]++;
        }
        reached[RUN][ours.answer < REFUSALS ? ours.answer : 0]++;
        happened[STOPPED_AT_ADDRESS + second.reason]++;
        machine = second.machine;
        at += second.events;
        /* In front of an unlisted word only another event than a cycle leads on. */
        if (second.reason == AT_UNLISTED)
            script[at] = any(2) ? RESET_PIN : (uint8_t)(PINS_A + any(0x40));
        if (second.reason == AT_UNLISTED && script[at] != RESET_PIN)
            set_two(machine.record + R_PC, any(WORDS));
        if (any(2))
            nudge(&machine);
    }
    check(memcmp(program, program_before, sizeof program) == 0, "machine %" PRIu64 ": its program is changed", number);
}

/* The codes that have a form that reads: all that name a cell but LDI; DAA with DAS among them. */
static bool code_reads(unsigned code)
{
    return code < 15 || code == 25;
}

void compare_runs(const struct plan *plan)
{
    uint64_t next_line = plan->events / 4, machines = 0;
    unsigned least = 0, least_reading = 0;

    while (happened[DONE_EVENTS] < plan->events) {
        one_machine(machines++);
        if (happened[DONE_EVENTS] >= next_line) {
            progress("runs: %" PRIu64 " events on %" PRIu64 " machines; failed so far %lu", happened[DONE_EVENTS],
                     machines, failed);
            next_line += plan->events / 4;
        }
    }
    for (int what = 0; what < HAPPENINGS; what++) {
        printf("  %-36s %12" PRIu64 "\n", happening_name[what], happened[what]);
        check(happened[what] > 0, "no %s in all these runs", happening_name[what]);
    }
    for (unsigned code = 0; code < CODES; code++) {
        if (executed_code[code] < executed_code[least])
            least = code;
        check((halves_read_by[code] > 0) == code_reads(code), "code %u read $004 and $005 %" PRIu64 " times", code,
              halves_read_by[code]);
        if (code_reads(code) && halves_read_by[code] < halves_read_by[least_reading])
            least_reading = code;
    }
    progress("  instructions of the rarest code (%u): %" PRIu64, least, executed_code[least]);
    progress("  reads of $004 and $005 by the code that reads them least (%u): %" PRIu64, least_reading,
             halves_read_by[least_reading]);
    check(executed_code[least] > 0, "no instruction of code %u in all these runs", least);
}
