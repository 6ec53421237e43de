/* The ends of stretches: words put where the program stands after its quiet cycles, or events. */
#include "compare_stretches.h"

static unsigned place;              /* where the next word of the end is put */
static struct second_machine there; /* after the quiet cycles */

/* ---- Quiet cycles, and what comes after them ---- */

void happens(uint8_t event)
{
    drawn.script[drawn.length++] = event;
}

void cycles(size_t number)
{
    while (number-- > 0)
        happens(CYCLE);
}

static void executes(unsigned word)
{
    put(place, word);
    place++;
    happens(CYCLE);
}

void goes_on(size_t number)
{
    second_unpack(&there, drawn.start.memory, drawn.start.record);
    for (;;) {
        const uint8_t cycle = CYCLE;
        uint64_t done;
        bool in_main = there.pc >= (drawn.page | MAIN) && there.pc < (drawn.page | MAIN_END);

        if (in_main && (drawn.length >= number || there.pc >= (drawn.page | MAIN_LAST)))
            break;
        (void)second_run_machine(&there, drawn.program, &cycle, 1, NO_STOP, &done);
        happens(CYCLE);
    }
    place = there.pc;
}

/* The cell holds the nibble before what comes next: by a word, or asleep from the start. */
static void arrange(bool asleep, unsigned cell, unsigned nibble)
{
    if (asleep)
        drawn.start.memory[cell] = (uint8_t)nibble;
    else
        executes(immediate(LDI, nibble, cell));
}

static void points_at(unsigned cell)
{
    executes(immediate(LDI, cell & 15, DPL));
    executes(immediate(LDI, cell >> 4, DPM));
    executes(immediate(LDI, 0, DPH));
}

/* A register gets a nibble: at once, from AC, or through the pointer. */
static void writes(unsigned cell, unsigned nibble)
{
    switch (any(4)) {
    case 0:
        executes(immediate(LDI, nibble, any_data()));
        executes(STA << 10 | cell);
        break;
    case 1:
        points_at(cell);
        executes(immediate(LDI, nibble, INX));
        break;
    default:
        executes(immediate(LDI, nibble, cell));
        break;
    }
}

static void reads(unsigned cell)
{
    bool through = any(4) == 0;
    unsigned named = through ? INX : cell;

    if (through)
        points_at(cell);
    switch (any(4)) {
    case 0:
        executes((2 * any(7) + 1) << 10 | named); /* a form that also writes */
        break;
    case 1:
        executes(immediate(any(2) ? ADI : SBI, any(16), named));
        break;
    default:
        executes(any(8) << 11 | named);
        break;
    }
}

static unsigned one_of(unsigned bits)
{
    unsigned bit;

    do
        bit = 1u << any(4);
    while (!(bits & bit));
    return bit;
}

/* ---- Ends by events ---- */

/* A request that is not enabled becomes due as it is. */
static unsigned due_by_enabling(unsigned others)
{
    unsigned source = one_of(~drawn.enabled);

    executes(immediate(LDI, source, 0x01));
    writes(0x000, source | others);
    return source;
}

/* An edge that requests, at a pin of port A, B or C. */
static void edge(bool asleep, unsigned port)
{
    unsigned pin = port == 0 ? 1 : one_of(15), pins = drawn.start.record[R_PINS + port];
    unsigned rising = pins & pin ? 0 : port == 0 ? 1 : 2, others = port == 0 ? 14 : 13;

    arrange(asleep, PACR + port, any(16) & ~pin);
    arrange(asleep, EDGES, rising | (any(16) & others));
    happens((uint8_t)(PINS_A + 16 * port + (pins ^ pin)));
}

/* An edge that Timer0 counts. */
static void counted_edge(bool asleep)
{
    drawn.start.record[R_PINS] |= 1;
    arrange(asleep, PACR, any(16) & 14);
    happens((uint8_t)(PINS_A + (any(16) & 14)));
}

static void base_overflow(void)
{
    uint8_t mode = (uint8_t)(8 | any(4));

    drawn.start.memory[0x003] = mode;
    drawn.start.record[R_BASE_PRESCALER] = (uint8_t)(base_ratio_of(mode) - 1);
    drawn.start.record[R_BASE_COUNTER] = 255;
    happens(BASE_PULSE);
}

static void watchdog_pulse(unsigned left)
{
    drawn.start.record[R_OPTIONS] |= 1;
    set_two(drawn.start.record + R_WATCHDOG, left);
    happens(WATCHDOG_PULSE);
}

/* ---- Ends at the stop address ---- */

static void stop_by_branch(void)
{
    unsigned target = place + 2 + any(4), word;
    struct second_machine trial;

    do {
        word = any(9) ? (16 + any(8)) << 11 | (target & (PAGE - 1)) : JMP | target;
        trial = there;
        (void)second_execute(&trial, (uint16_t)word);
    } while (trial.pc != target);
    executes(word);
    drawn.stop = target;
}

static void stop_by_return(unsigned word)
{
    unsigned words = any(5);

    executes(CALL | LAST_ROUTINE);
    put(drawn.page + LAST_ROUTINE + words, word);
    cycles(words + 1);
    drawn.stop = place;
}

static void stop_by_table(void)
{
    unsigned middle = 1 + any(15), low = any(16);

    executes(JMP | drawn.page | LAST_WORDS);
    place = drawn.page | LAST_WORDS;
    executes(immediate(LDI, middle, TBR));
    executes(immediate(LDI, low, any_data()));
    executes(TJMP_WORD);
    drawn.stop = drawn.page | LAST_WORDS | middle << 4 | low;
}

void stop_by_entry(unsigned source)
{
    cycles(1);
    drawn.stop = source == EXTERNAL ? 1 : source == TIMER0 ? 2 : source == BASE ? 3 : 4;
}

static void stop_by_interrupt(bool asleep)
{
    unsigned source;

    switch (any(asleep ? 3 : 5)) {
    case 0:
        source = EXTERNAL;
        edge(asleep, 0);
        break;
    case 1:
        source = PORT;
        edge(asleep, 1 + any(2));
        break;
    case 2:
        source = BASE;
        base_overflow();
        break;
    case 3:
        source = one_of(drawn.enabled);
        writes(0x001, source);
        break;
    default:
        source = due_by_enabling(0);
        break;
    }
    stop_by_entry(source);
}

/* ---- Every end ---- */

static void put_word_end(enum way way)
{
    switch (way) {
    case BY_UNLISTED:
        executes(0xF800 + any(0x7FF));
        break;
    case BY_HALT:
        executes(HALT_WORD);
        break;
    case BY_STOP:
        executes(STOP_WORD);
        break;
    case BY_ROM_READ:
        writes(0x01A, any(16));
        break;
    case BY_ROM_READ_AND_HALT:
        writes(0x01A, any(16));
        executes(HALT_WORD);
        break;
    case BY_WRITE_002: case BY_WRITE_003: case BY_WRITE_004: case BY_WRITE_005:
        writes(0x002 + (way - BY_WRITE_002), any(16));
        break;
    case BY_RELEASING_005:
        set_frozen(&drawn.start, true);
        writes(0x005, any(16));
        break;
    case BY_WRITE_01E:
        writes(0x01E, any(16));
        break;
    case BY_READ_004: case BY_READ_005:
        set_frozen(&drawn.start, false);
        reads(0x004 + (way - BY_READ_004));
        break;
    case BY_FROZEN_READ_004: case BY_FROZEN_READ_005:
        set_frozen(&drawn.start, true);
        reads(0x004 + (way - BY_FROZEN_READ_004));
        break;
    case BY_BOTH_HALVES:
        executes(any(8) << 11 | 0x005);
        executes(any(8) << 11 | 0x004);
        break;
    case BY_READ_01E:
        reads(0x01E);
        break;
    case BY_OTHER_CELL:
        executes(any(16) << 10 | (any(2) ? 0x370 + any(8) : 0x170 + any(0x190)));
        break;
    case BY_DECIMAL_ON_REGISTER:
        executes((any(2) ? DAA : DAS) | any(INX));
        break;
    default: /* by Timer0 or by the script's end alone */
        break;
    }
}

static void put_stop_end(enum way way, bool asleep)
{
    switch (way) {
    case STOP_BY_GOING_ON:
        executes(plain_word());
        drawn.stop = place;
        break;
    case STOP_BY_BRANCH:
        stop_by_branch();
        break;
    case STOP_BY_CALL:
        executes(CALL | LAST_ROUTINE);
        drawn.stop = drawn.page | LAST_ROUTINE;
        break;
    case STOP_BY_RTNI:
        stop_by_return(RTNI_WORD);
        break;
    case STOP_BY_RTNW:
        stop_by_return(RTNW | any(256));
        break;
    case STOP_BY_TJMP:
        stop_by_table();
        break;
    case STOP_BY_INTERRUPT:
        stop_by_interrupt(asleep);
        break;
    case STOP_AND_DUE:
        if (any(2))
            due_by_enabling(0);
        else
            writes(0x001, one_of(drawn.enabled));
        drawn.stop = place;
        break;
    default:
        put_word_end(way);
        break;
    }
}

void put_end(enum way way, bool asleep)
{
    switch (way) {
    case BY_PIN_OVERFLOW: case DUE_BY_PIN_OVERFLOW:
        drawn.start.record[R_T0_COUNTER] = 255;
        counted_edge(asleep);
        break;
    case BY_PIN_COUNT:
        counted_edge(asleep);
        break;
    case DUE_BY_EXTERNAL: case DUE_BY_PORT_B: case DUE_BY_PORT_C:
        edge(asleep, way - DUE_BY_EXTERNAL);
        break;
    case DUE_BY_BASE:
        base_overflow();
        break;
    case DUE_BY_000:
        due_by_enabling(any(16) & drawn.enabled);
        break;
    case DUE_BY_001:
        writes(0x001, one_of(drawn.enabled) | any(16));
        break;
    case BY_PINS_A: case BY_PINS_B: case BY_PINS_C: case BY_PINS_D:
        happens((uint8_t)(PINS_A + 16 * (way - BY_PINS_A) + any(16)));
        break;
    case BY_BASE_PULSE:
        drawn.start.record[R_BASE_COUNTER] = 0;
        happens(BASE_PULSE);
        break;
    case BY_WATCHDOG_PULSE:
        drawn.start.memory[0x01E] = (uint8_t)any(7);
        watchdog_pulse(2 + any(period_of(drawn.start.memory[0x01E]) - 1));
        break;
    case BY_WATCHDOG_RESET:
        watchdog_pulse(1);
        break;
    case BY_PIN_RESET:
        happens(RESET_PIN);
        break;
    case BY_SOUND_CLOCK:
        for (unsigned clocks = any(2) ? 1 : 1 + any(40); clocks > 0; clocks--)
            happens(SOUND_CLOCK);
        break;
    default:
        put_stop_end(way, asleep);
        break;
    }
}
