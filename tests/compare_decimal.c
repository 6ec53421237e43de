/* DAA and DAS with every AC and CY on every value that a machine can have in a cell, for each cell that they can name
   and, through $00F, for each of all 1,024; by single steps, and in the middle of runs, which have shorter ways for
   some cells. What they leave is also held to the documents' words. */
#include "compare.h"
#include "result.h"
#include "support.h"

#include "../desk/galhoveia.h"
#include "../second/second.h"

#include <stdio.h>
#include <string.h>

enum { NIBBLES = 16, CARRIES = 2, PORTS = 4, PORT_VALUES = NIBBLES * NIBBLES * NIBBLES, NEAR_CELLS = 0x080 };
enum {
    ENABLES = 0x000, REQUESTS = 0x001, TM0 = 0x002, BTM = 0x003, TL0 = 0x004, TH0 = 0x005, PORTA = 0x008,
    BONDING = 0x00C, INX = 0x00F, DPL = 0x010, DPM = 0x011, DPH = 0x012, PACR = 0x016, RDT0 = 0x01A, RDT1 = 0x01B,
    RDT2 = 0x01C, RDT3 = 0x01D, WDT = 0x01E, DATA = 0x020, SOUND = 0x370
};
enum { TIMER0 = 4, SOURCE_BITS = 7, PIN_SOURCE = 7, RELOAD_BIT = 8 }; /* of $000 and $001, and of $002 */
enum { STA = 0x3C00, LDI = 0x7800, DAA = 0xCB00, DAS = 0xCD00, NOP = 0xFFFF, PAGE = 0x800 };

static uint8_t program[PROGRAM_BYTES];

static bool is_port(unsigned cell)
{
    return cell >= PORTA && cell < PORTA + PORTS;
}

/* ---- The documents' words, said once more ---- */

static void release(struct machine *m)
{
    m->record[R_FROZEN] = 0;
    m->record[R_FROZEN_MARK] = 0;
}

/* What reading the cell gives (01, One instruction; 02, P2). What a read of $005 freezes, its write releases. */
static unsigned read_of(struct machine *m, unsigned cell)
{
    if (cell == TL0) {
        unsigned low = m->record[R_FROZEN_MARK] ? m->record[R_FROZEN] : m->record[R_T0_COUNTER] % 16;

        release(m);
        return low;
    }
    if (cell == TH0)
        return m->record[R_T0_COUNTER] / 16;
    if (is_port(cell)) {
        unsigned outputs = m->memory[PACR + cell - PORTA], pins = m->record[R_PINS + cell - PORTA];

        return (pins & ~outputs) | (m->memory[cell] & outputs);
    }
    return cell < SOUND ? m->memory[cell] : 0;
}

/* What writing the cell does (01, What is lent, One instruction; 02, P2). */
static void write_to(struct machine *m, unsigned cell, unsigned nibble)
{
    unsigned stays = cell == BONDING ? 3 : cell == WDT ? 8 : 0, load = m->record[R_T0_LOAD];

    m->memory[cell] = (uint8_t)((m->memory[cell] & stays) | (nibble & bits_held(cell) & ~stays));
    switch (cell) {
    case TM0:
        set_two(m->record + R_T0_PRESCALER, 0);
        break;
    case BTM:
        m->record[R_BASE_PRESCALER] = 0;
        if (!base_is_on(m->memory[BTM]))
            m->record[R_BASE_COUNTER] = 0;
        break;
    case TL0:
        m->record[R_T0_LOAD] = (uint8_t)(load / 16 * 16 + nibble);
        break;
    case TH0:
        m->record[R_T0_LOAD] = m->record[R_T0_COUNTER] = (uint8_t)(16 * nibble + load % 16);
        release(m);
        break;
    case RDT0:
        m->record[R_PENDING] = 1;
        set_two(m->record + R_PENDING_ADDRESS, 256u * m->memory[RDT2] + 16u * m->memory[RDT1] + nibble);
        break;
    case WDT:
        set_two(m->record + R_WATCHDOG, period_of(m->memory[WDT]));
        break;
    default:
        break;
    }
}

/* 02, P6, with the carry rules of 01. */
static void adjust(struct machine *m, bool subtract, unsigned cell)
{
    unsigned nibble = read_of(m, cell);

    if (subtract && m->record[R_CY] == 0) {
        nibble = (nibble + 10) % 16;
    } else if (!subtract && (nibble > 9 || m->record[R_CY] == 1)) {
        nibble = (nibble + 6) % 16;
        m->record[R_CY] = 1;
    }
    m->record[R_AC] = (uint8_t)nibble;
    write_to(m, cell, nibble);
}

static void clock_timer0(struct machine *m)
{
    uint8_t mode = m->memory[TM0], *counter = m->record + R_T0_COUNTER;
    unsigned clocks = two(m->record + R_T0_PRESCALER) + 1;

    if ((mode & SOURCE_BITS) == PIN_SOURCE)
        return;
    set_two(m->record + R_T0_PRESCALER, clocks % ratio_of(mode));
    if (clocks < ratio_of(mode))
        return;
    if (*counter == 255)
        m->memory[REQUESTS] |= TIMER0;
    *counter = *counter < 255 ? *counter + 1 : mode & RELOAD_BIT ? m->record[R_T0_LOAD] : 0;
}

static void land(struct machine *m, unsigned word)
{
    for (unsigned cell = RDT0; cell <= RDT3; cell++, word >>= 4)
        m->memory[cell] = word & 15;
}

/* A cycle of a machine that is awake and stands at NOP, LDI, STA, DAA or DAS (01, Cycle); LDI and STA have a data
   cell. */
static void cycle(struct machine *m)
{
    unsigned pc = two(m->record + R_PC), word = two(program + 2 * pc);
    unsigned near = word & 0x7F, cell = near == INX ? pointer_of(m->memory) : near;
    bool landing = m->record[R_PENDING];
    unsigned landed = two(program + 2 * two(m->record + R_PENDING_ADDRESS));

    m->record[R_PENDING] = 0;
    set_two(m->record + R_PENDING_ADDRESS, 0);
    if ((word & 0xFF80) == DAA || (word & 0xFF80) == DAS)
        adjust(m, (word & 0xFF80) == DAS, cell);
    if ((word & 0xF800) == LDI)
        m->record[R_AC] = word >> 7 & 15;
    if ((word & 0xF800) == LDI || (word & 0xFC00) == STA)
        m->memory[cell] = m->record[R_AC];
    set_two(m->record + R_PC, (pc & PAGE) | ((pc + 1) & (PAGE - 1)));
    if (landing)
        land(m, landed);
    clock_timer0(m);
}

static bool is_due(const struct machine *m)
{
    return m->memory[ENABLES] & m->memory[REQUESTS];
}

/* ---- Every value of a cell ---- */

/* How many there are to try; some are none of the machine's. */
static unsigned values_of(unsigned cell)
{
    if (cell == TL0)
        return NIBBLES * (1 + NIBBLES);
    if (cell == TH0)
        return NIBBLES * 2;
    return is_port(cell) ? PORT_VALUES : NIBBLES;
}

/* Latch, control and pins of a port; the half of Timer0's counter, and the nibble that is frozen, if one is; else what
   the cell holds, with what must fit it. Answers whether the cell can have it. */
static bool set_value(struct machine *m, unsigned cell, unsigned number)
{
    uint8_t *memory = m->memory, *record = m->record, nibble = number % 16;

    if (cell == TL0) {
        record[R_T0_COUNTER] = (uint8_t)(16 * any(16) + nibble);
        record[R_FROZEN_MARK] = number >= NIBBLES;
        record[R_FROZEN] = (uint8_t)(number >= NIBBLES ? number / NIBBLES - 1 : 0);
        return true;
    }
    if (cell == TH0) {
        record[R_T0_COUNTER] = (uint8_t)(16 * nibble + any(16));
        set_frozen(m, number >= NIBBLES);
        return true;
    }
    if (nibble & ~bits_held(cell))
        return false;
    memory[cell] = nibble;
    if (is_port(cell)) {
        memory[PACR + cell - PORTA] = number / 16 % 16;
        record[R_PINS + cell - PORTA] = (uint8_t)(number / 256);
    }
    if (cell == TM0)
        set_two(record + R_T0_PRESCALER, any(ratio_of(nibble)));
    if (cell == BTM) {
        record[R_BASE_PRESCALER] = (uint8_t)(base_is_on(nibble) ? any(base_ratio_of(nibble)) : 0);
        record[R_BASE_COUNTER] = (uint8_t)(base_is_on(nibble) ? any(256) : 0);
    }
    if (cell == BONDING)
        record[R_OPTIONS] = (uint8_t)((record[R_OPTIONS] & 1) | (nibble & 3) << 1);
    if (cell == WDT)
        set_two(record + R_WATCHDOG, 1 + any(period_of(nibble)));
    return true;
}

/* ---- Words and machines ---- */

/* From `start` on: NOPs before, LDI that sets AC, DAA or DAS, STA that shows AC again, and NOPs. */
enum {
    BEFORE_MOST = 6, AFTER_MOST = 3, WORDS_MOST = BEFORE_MOST + 3 + AFTER_MOST, CLOCKS_MOST = 3,
    SCRIPT_MOST = WORDS_MOST * (1 + CLOCKS_MOST)
};

static unsigned start, before, words;

static unsigned place_of(unsigned at)
{
    return (start & PAGE) | ((start + at) & (PAGE - 1));
}

static void put(unsigned at, unsigned word)
{
    set_two(program + 2 * place_of(at), word);
}

/* LDI and STA have each a cell of their own. */
static void put_words(unsigned word, unsigned ac, unsigned cell)
{
    unsigned apart = cell / 2 == DATA / 2 ? DATA + 2 : DATA;

    put(before, LDI | ac << 7 | apart);
    put(before + 1, word);
    put(before + 2, STA | (apart + 1));
}

static void take_words_away(void)
{
    for (unsigned at = 0; at < WORDS_MOST; at++)
        put(at, NOP);
}

/* A well-formed machine that is awake, with the value in the cell, and with the pointer at it where the word names
   $00F. Nothing is due, nor becomes due but by what the word does. Answers whether there is one. */
static bool draw_machine(struct machine *machine, unsigned cell, bool through_pointer, unsigned number)
{
    uint8_t *memory = machine->memory, *record = machine->record;

    random_machine(machine);
    record[R_MODE] = RUNNING;
    if (any(4)) {
        record[R_PENDING] = 0;
        set_two(record + R_PENDING_ADDRESS, 0);
    }
    if (through_pointer) {
        memory[DPL] = cell % 16;
        memory[DPM] = cell / 16 % 8;
        memory[DPH] = (uint8_t)(cell / 128);
    }
    if (!set_value(machine, cell, number) || (through_pointer && pointer_of(memory) != cell))
        return false;
    if (cell == ENABLES)
        memory[REQUESTS] &= (uint8_t)~memory[ENABLES];
    else
        memory[ENABLES] &= (uint8_t)~(memory[REQUESTS] | TIMER0);
    start = two(record + R_PC);
    before = any(BEFORE_MOST + 1);
    words = before + 3 + any(AFTER_MOST + 1);
    return true;
}

/* As many cycles as there are words, with sound clocks between them or without. */
static size_t draw_script(uint8_t *script)
{
    bool sounding = any(2);
    size_t length = 0;

    for (unsigned at = 0; at < words; at++) {
        script[length++] = CYCLE;
        for (unsigned clocks = sounding ? any(CLOCKS_MOST + 1) : 0; clocks > 0; clocks--)
            script[length++] = SOUND_CLOCK;
    }
    return length;
}

/* ---- What was tried ---- */

/* Two words, 16 of AC and 2 of CY on each value: 16 of 96 data cells by their names and of all 431 data, display and
   scan cells; 4,096 of each port, 272 of $004 and 32 of $005, both ways; 338 of the other registers by their names and
   310 through $00F; 16 of each of 8 sound cells, and 1 of each of 553 cells that there are not. */
enum { ALL_STATES = 2 * 16 * 2 * (16 * (96 + 431) + 2 * (4 * 4096 + 272 + 32) + 338 + 310 + 8 * 16 + 553) };

enum tried {
    STATES, BY_NAME, THROUGH_POINTER, PLAIN, OF_PORTS, OF_HALVES, FROZEN, OF_OTHER_REGISTERS, READ_AS_0, ADJUSTED,
    NOT_ADJUSTED, STORED_OVER, OTHER_AC, IN_RUNS, RUNS_JUDGED, TRIED
};

static const char *const tried_name[TRIED] = {
    "states of cell, AC and CY", "  by the cell's name", "  through $00F", "  data, display and scan cells",
    "  ports, by latch, control and pins", "  $004 and $005", "    a nibble frozen", "  other registers",
    "  sound cells, or none", "adjusted", "not adjusted", "  and yet stored over another",
    "AC not what the cell reads as", "in the middle of a run", "  the run judged to its end"};

static unsigned long tried[TRIED];

static void count_state(const struct machine *from, const struct machine *then, unsigned word, unsigned cell)
{
    struct machine reading = *from;
    unsigned nibble = read_of(&reading, cell);
    bool adjusted = then->record[R_AC] != nibble, of_halves = cell == TL0 || cell == TH0;

    tried[STATES]++;
    tried[(word & 0x7F) == INX ? THROUGH_POINTER : BY_NAME]++;
    tried[is_askable(cell) ? PLAIN : is_port(cell) ? OF_PORTS : of_halves ? OF_HALVES
          : cell < DATA ? OF_OTHER_REGISTERS : READ_AS_0]++;
    tried[FROZEN] += of_halves && from->record[R_FROZEN_MARK];
    tried[adjusted ? ADJUSTED : NOT_ADJUSTED]++;
    tried[STORED_OVER] += !adjusted && from->memory[cell] != nibble && then->memory[cell] == nibble;
    tried[OTHER_AC] += from->record[R_AC] != nibble;
}

/* Of all cells. */
static void tell_tried(void)
{
    check(tried[STATES] == ALL_STATES, "%lu states, not %d", tried[STATES], ALL_STATES);
    for (int what = 0; what < TRIED; what++) {
        printf("  %-36s %12lu\n", tried_name[what], tried[what]);
        check(tried[what] > 0, "none of all these: %s", tried_name[what]);
    }
}

/* ---- By step and by run ---- */

typedef uint32_t steps(const uint8_t *, size_t, uint8_t *, size_t, uint8_t *, size_t, uint8_t, uint64_t *);

static struct result by_step(steps *step, const struct machine *machine)
{
    struct result result = {99, 0, 0, 99, *machine};

    result.answer = step(program, PROGRAM_BYTES, result.machine.memory, MEMORY_BYTES, result.machine.record,
                         RECORD_BYTES, CYCLE, &result.value);
    return result;
}

static void hold(const char *how, unsigned word, unsigned cell, const struct result *ours, const struct result *second)
{
    const uint8_t *left = ours->machine.record, *right = second->machine.record;

    check(same(ours, second), "$%04X on $%03X by %s: answer %u/%u, AC %u/%u, CY %u/%u, or another state", word, cell,
          how, ours->answer, second->answer, left[R_AC], right[R_AC], left[R_CY], right[R_CY]);
}

static void hold_to_judge(const char *how, unsigned word, unsigned cell, const struct result *ours,
                          const struct machine *judged)
{
    const uint8_t *left = ours->machine.record, *right = judged->record;

    check(ours->answer == 0 && memcmp(&ours->machine, judged, sizeof *judged) == 0,
          "$%04X on $%03X by %s: answer %u, AC %u, not %u, CY %u, not %u, or another state than by the documents", word,
          cell, how, ours->answer, left[R_AC], right[R_AC], left[R_CY], right[R_CY]);
}

static void try_step(struct machine machine, unsigned word, unsigned cell, unsigned ac)
{
    struct machine judged;
    struct result ours, second;

    machine.record[R_AC] = (uint8_t)ac;
    set_two(machine.record + R_PC, place_of(before + 1));
    judged = machine;
    cycle(&judged);
    ours = by_step(galhoveia_step, &machine);
    second = by_step(second_step, &machine);
    hold("step", word, cell, &ours, &second);
    hold_to_judge("step", word, cell, &ours, &judged);
    count_state(&machine, &judged, word, cell);
}

/* Where the word makes an interrupt due, what comes after is left to the two emulators; and so are the tones. */
static void try_run(struct machine machine, unsigned word, unsigned cell, const uint8_t *script, size_t length)
{
    struct machine judged;
    struct result ours, second;
    unsigned done = 0;

    machine.record[R_AC] = (uint8_t)any(NIBBLES);
    judged = machine;
    ours = by_run(galhoveia_run, program, &machine, script, length, NO_STOP);
    second = by_run(second_run, program, &machine, script, length, NO_STOP);
    hold("run", word, cell, &ours, &second);
    tried[IN_RUNS]++;
    while (done < words && !is_due(&judged)) {
        cycle(&judged);
        done++;
    }
    if (done < words)
        return;
    memcpy(judged.record + R_SOUND_COUNT, ours.machine.record + R_SOUND_COUNT, CHANNELS * R_SOUND_BYTES);
    hold_to_judge("run", word, cell, &ours, &judged);
    tried[RUNS_JUDGED]++;
}

/* ---- All of it ---- */

/* A call of run takes its time, and a port has many values: each of these is run with one AC. */
static void every_accumulator(const struct machine *machine, unsigned word, unsigned cell)
{
    uint8_t script[SCRIPT_MOST];
    size_t length = draw_script(script);
    unsigned run_on_port = any(NIBBLES);

    for (unsigned ac = 0; ac < NIBBLES; ac++) {
        put_words(word, ac, cell);
        try_step(*machine, word, cell, ac);
        if (!is_port(cell) || ac == run_on_port)
            try_run(*machine, word, cell, script, length);
    }
}

static void every_state(unsigned cell, bool through_pointer)
{
    unsigned named = through_pointer ? INX : cell;
    struct machine machine;

    for (unsigned number = 0; number < values_of(cell); number++) {
        if (!draw_machine(&machine, cell, through_pointer, number))
            continue;
        for (uint8_t cy = 0; cy < CARRIES; cy++) {
            machine.record[R_CY] = cy;
            every_accumulator(&machine, DAA | named, cell);
            every_accumulator(&machine, DAS | named, cell);
        }
        take_words_away();
    }
}

void compare_decimal(const struct plan *plan)
{
    memset(program, 0xFF, sizeof program);
    for (unsigned cell = 0; cell < NEAR_CELLS; cell += plan->cell_stride)
        if (cell != INX)
            every_state(cell, false);
    for (unsigned cell = 0; cell < MEMORY_BYTES; cell += plan->cell_stride)
        every_state(cell, true);
    if (plan->cell_stride == 1)
        tell_tried();
    progress("decimal: DAA and DAS with every AC and CY on every value of a cell, %lu states, each by a step, %lu in a "
             "run; failed so far %lu", tried[STATES], tried[IN_RUNS], failed);
}
