/* The emulator: the machine's parts in the order of document 01, then the calls with their refusals. */
#include "second.h"

#include "judging.h"
#include "search.h"

#include <string.h>

/* Register addresses (003, 3.2). */
enum {
    IE = 0x000, IRQ = 0x001, TM0 = 0x002, BTM = 0x003, TL0 = 0x004, TH0 = 0x005, LCD = 0x007,
    PORTA = 0x008, PORTB = 0x009, PORTC = 0x00A, PORTD = 0x00B, BONDING = 0x00C, TBR = 0x00E, INX = 0x00F,
    DPL = 0x010, DPM = 0x011, DPH = 0x012, EDGES = 0x013, OSCX = 0x014, PACR = 0x016, PBCR = 0x017, PCCR = 0x018,
    PDCR = 0x019, RDT0 = 0x01A, RDT1 = 0x01B, RDT2 = 0x01C, RDT3 = 0x01D, WDT = 0x01E,
    SOUND = 0x370, TONE1_LOW = 0x371, TONE1_HIGH = 0x372, TONE2_LOW = 0x375, TONE2_HIGH = 0x376, VOLUME = 0x377,
    SOUND_END = 0x378
};

/* One bit for each interrupt source, in $000 and $001 alike, and the vectors (003, 2.1 and 13.1). */
enum { EXTERNAL = 8, TIMER0 = 4, BASE = 2, PORT = 1 };
enum { VECTOR_EXTERNAL = 1, VECTOR_TIMER0 = 2, VECTOR_BASE = 3, VECTOR_PORT = 4 };

enum { TM0_RELOAD = 8, TM0_SOURCE = 7, LCDON = 4, WDF = 8, WDT_SELECT = 7, PAGE = 0x800, NO_READ = 0 };
enum { OPTION_WATCHDOG = 1, OPTIONS_LAST = 7, TONE_COUNT_LAST = 1015 };
enum { C1M = 1, C2M = 2, OCTAVE = 8, OCTAVE_RATIO = 8, CH1EN = 1, CH2EN = 2 }; /* of $370, $372 and $376, $377 */
enum {
    EVENT_CYCLE = 0x00, EVENT_BASE = 0x01, EVENT_WATCHDOG = 0x02, EVENT_RESET = 0x03, EVENT_SOUND = 0x05,
    EVENT_PINS = 0x10, EVENT_PINS_LAST = 0x4F
};

/* Document 01's refusals that a call of this file can answer. */
enum {
    DONE = 0, PROGRAM_LENGTH = 1, MEMORY_LENGTH = 2, MEMORY_CELL = 3, RECORD = 4, UNKNOWN_EVENT = 5, UNLISTED = 6,
    ROOM = 7, ASKED_CELL = 8, DIGIT = 9, LENGTH = 10, BODY = 11, OPTIONS = 12
};

/* Pin counting has no prescaler; its entry is 1 so that 0 is the only prescaler below it, as the record demands. */
static const uint16_t timer0_ratio[8] = {2048, 512, 128, 32, 8, 4, 2, 1};
enum { TM0_PIN = 7 };

static const uint8_t base_ratio[4] = {1, 4, 8, 16};
static const uint16_t watchdog_period[8] = {4096, 1024, 256, 128, 64, 16, 4, 1};

/* The value N of a tone's divider by its seven register bits, row by row as 003, section 12, prints them. N 103 is
   printed with $19, which N 19 has too; document 02 mends it to $79. The value 0 has no N. */
static const uint8_t divider_of[128] = {
    [0x01] = 127, [0x16] =  95, [0x12] =  63, [0x4B] =  31,
    [0x02] = 126, [0x2C] =  94, [0x24] =  62, [0x17] =  30,
    [0x04] = 125, [0x59] =  93, [0x49] =  61, [0x2E] =  29,
    [0x08] = 124, [0x33] =  92, [0x13] =  60, [0x5D] =  28,
    [0x10] = 123, [0x67] =  91, [0x26] =  59, [0x3B] =  27,
    [0x20] = 122, [0x4E] =  90, [0x4D] =  58, [0x77] =  26,
    [0x41] = 121, [0x1D] =  89, [0x1B] =  57, [0x6E] =  25,
    [0x03] = 120, [0x3A] =  88, [0x36] =  56, [0x5C] =  24,
    [0x06] = 119, [0x75] =  87, [0x6D] =  55, [0x39] =  23,
    [0x0C] = 118, [0x6A] =  86, [0x5A] =  54, [0x73] =  22,
    [0x18] = 117, [0x54] =  85, [0x35] =  53, [0x66] =  21,
    [0x30] = 116, [0x29] =  84, [0x6B] =  52, [0x4C] =  20,
    [0x61] = 115, [0x53] =  83, [0x56] =  51, [0x19] =  19,
    [0x42] = 114, [0x27] =  82, [0x2D] =  50, [0x32] =  18,
    [0x05] = 113, [0x4F] =  81, [0x5B] =  49, [0x65] =  17,
    [0x0A] = 112, [0x1F] =  80, [0x37] =  48, [0x4A] =  16,
    [0x14] = 111, [0x3E] =  79, [0x6F] =  47, [0x15] =  15,
    [0x28] = 110, [0x7D] =  78, [0x5E] =  46, [0x2A] =  14,
    [0x51] = 109, [0x7A] =  77, [0x3D] =  45, [0x55] =  13,
    [0x23] = 108, [0x74] =  76, [0x7B] =  44, [0x2B] =  12,
    [0x47] = 107, [0x68] =  75, [0x76] =  43, [0x57] =  11,
    [0x0F] = 106, [0x50] =  74, [0x6C] =  42, [0x2F] =  10,
    [0x1E] = 105, [0x21] =  73, [0x58] =  41, [0x5F] =   9,
    [0x3C] = 104, [0x43] =  72, [0x31] =  40, [0x3F] =   8,
    [0x79] = 103, [0x07] =  71, [0x63] =  39, [0x7F] =   7,
    [0x72] = 102, [0x0E] =  70, [0x46] =  38, [0x7E] =   6,
    [0x64] = 101, [0x1C] =  69, [0x0D] =  37, [0x7C] =   5,
    [0x48] = 100, [0x38] =  68, [0x1A] =  36, [0x78] =   4,
    [0x11] =  99, [0x71] =  67, [0x34] =  35, [0x70] =   3,
    [0x22] =  98, [0x62] =  66, [0x69] =  34, [0x60] =   2,
    [0x45] =  97, [0x44] =  65, [0x52] =  33, [0x40] =   1,
    [0x0B] =  96, [0x09] =  64, [0x25] =  32,
};

#define SIXTEEN(bits) bits, bits, bits, bits, bits, bits, bits, bits, bits, bits, bits, bits, bits, bits, bits, bits

/* The bits that each cell can hold. A lent byte may have no other, and a write stores no other. */
static const uint8_t holds[SECOND_CELLS] = {
    /* $000 */ 15, 15, 15, 15, 0, 0, 0, 7, 15, 15, 15, 15, 15, 15, 15, 0,
    /* $010 */ 15, 7, 7, 15, 11, 15, 15, 15, 15, 15, 15, 15, 15, 15, 15, 0,
    /* $020 */ SIXTEEN(15), SIXTEEN(15), SIXTEEN(15), SIXTEEN(15), SIXTEEN(15), SIXTEEN(15),
    /* $080 */ SIXTEEN(15), SIXTEEN(15), SIXTEEN(15), SIXTEEN(15), SIXTEEN(15), SIXTEEN(15), SIXTEEN(15), SIXTEEN(15),
    /* $100 */ SIXTEEN(15), SIXTEEN(15), SIXTEEN(15), SIXTEEN(15), SIXTEEN(15), SIXTEEN(15), SIXTEEN(15),
    /* $170 */ SIXTEEN(0),
    /* $180 */ SIXTEEN(0), SIXTEEN(0), SIXTEEN(0), SIXTEEN(0), SIXTEEN(0), SIXTEEN(0), SIXTEEN(0), SIXTEEN(0),
    /* $200 */ SIXTEEN(0), SIXTEEN(0), SIXTEEN(0), SIXTEEN(0), SIXTEEN(0), SIXTEEN(0), SIXTEEN(0), SIXTEEN(0),
    /* $280 */ SIXTEEN(0), SIXTEEN(0), SIXTEEN(0), SIXTEEN(0), SIXTEEN(0), SIXTEEN(0), SIXTEEN(0), SIXTEEN(0),
    /* $300 */ SIXTEEN(15), SIXTEEN(15), SIXTEEN(15), SIXTEEN(15),
    /* $340 */ 15, 15, 15, 15, 15, 15, 15, 15, 15, 0, 0, 0, 0, 0, 0, 0,
    /* $350 */ 0, 0, 0, 0, 0, 0, 0, 0, 15, 15, 15, 15, 15, 15, 15, 15,
    /* $360 */ 15, 15, 15, 15, 15, 15, 15, 15, 15, 15, 15, 15, 15, 15, 0, 0,
    /* $370 */ 15, 15, 15, 15, 15, 15, 15, 15, 0, 0, 0, 0, 0, 0, 0, 0,
    /* $380 to the end: 0 */
};

/* ---- Timers ---- */

static void count_timer0(struct second_machine *m)
{
    if (m->timer0_counter != 255) {
        m->timer0_counter++;
        return;
    }
    m->cell[IRQ] |= TIMER0;
    m->timer0_counter = m->cell[TM0] & TM0_RELOAD ? m->timer0_load : 0;
}

static void clock_timer0(struct second_machine *m)
{
    unsigned source = m->cell[TM0] & TM0_SOURCE;

    if (source == TM0_PIN)
        return;
    if (++m->timer0_prescaler < timer0_ratio[source])
        return;
    m->timer0_prescaler = 0;
    count_timer0(m);
}

static bool base_is_on(const struct second_machine *m)
{
    return (m->cell[BTM] & 0xC) == 0x8;
}

static void pulse_base(struct second_machine *m)
{
    if (m->mode == SECOND_STOP || !base_is_on(m))
        return;
    if (++m->base_prescaler < base_ratio[m->cell[BTM] & 3])
        return;
    m->base_prescaler = 0;
    if (m->base_counter == 255)
        m->cell[IRQ] |= BASE;
    m->base_counter++;
}

static uint16_t period_of(const struct second_machine *m)
{
    return watchdog_period[m->cell[WDT] & WDT_SELECT];
}

/* ---- Sound (003, section 12; 02, P1) ---- */

static void clock_tone(struct second_tone *tone, unsigned low, unsigned high)
{
    unsigned divider = divider_of[(high & 7) << 4 | low];

    if (divider == 0)
        return;
    if (tone->count == 0)
        tone->count = (uint16_t)(high & OCTAVE ? OCTAVE_RATIO * divider : divider);
    if (--tone->count == 0)
        tone->output ^= 1;
}

/* In noise or alarm mode channel 2 is no tone, and channel 1 goes on. */
static void clock_sound(struct second_machine *m)
{
    if (m->mode == SECOND_STOP)
        return;
    if (m->cell[VOLUME] & CH1EN)
        clock_tone(&m->tone[0], m->cell[TONE1_LOW], m->cell[TONE1_HIGH]);
    if ((m->cell[VOLUME] & CH2EN) && !(m->cell[SOUND] & (C1M | C2M)))
        clock_tone(&m->tone[1], m->cell[TONE2_LOW], m->cell[TONE2_HIGH]);
}

/* ---- Timer0 read in two halves (02, P2) ---- */

static void freeze(struct second_machine *m)
{
    m->frozen = m->timer0_counter & 15;
    m->frozen_mark = 1;
}

static void release(struct second_machine *m)
{
    m->frozen = 0;
    m->frozen_mark = 0;
}

/* ---- Reset (003, table 3.3; 01, Reset; 02, P1 and P2) ---- */

static uint8_t bonding_of(const struct second_machine *m)
{
    return m->options >> 1 & 3;
}

/* What the table leaves out and documents 01 and 02 settle for both kinds. It comes after the cells, since the period
   hangs on $01E. */
static void reset_registers(struct second_machine *m)
{
    m->pc = 0;
    m->ac = 0;
    m->cy = 0;
    m->mode = SECOND_RUNNING;
    memset(m->stack, 0, sizeof m->stack);
    m->timer0_prescaler = 0;
    m->timer0_counter = 0;
    m->timer0_load = 0;
    m->base_prescaler = 0;
    m->base_counter = 0;
    m->pending = 0;
    m->pending_address = NO_READ;
    memset(m->tone, 0, sizeof m->tone);
    release(m);
    m->watchdog = period_of(m);
}

static void reset_by_pin(struct second_machine *m)
{
    memset(m->cell, 0, WDT + 1);
    m->cell[BONDING] = bonding_of(m);
    m->cell[EDGES] = 4;
    memset(m->cell + SOUND, 0, SOUND_END - SOUND);
    reset_registers(m);
}

static void reset_by_watchdog(struct second_machine *m)
{
    m->cell[IE] = 0;
    m->cell[IRQ] = 0;
    memset(m->cell + PORTA, 0, PORTD - PORTA + 1);
    m->cell[BONDING] = (m->cell[BONDING] & 0xC) | bonding_of(m);
    m->cell[EDGES] &= 7;
    m->cell[OSCX] &= 0xD;
    memset(m->cell + PACR, 0, PDCR - PACR + 1);
    m->cell[WDT] = WDF;
    m->cell[VOLUME] &= 0xC;
    reset_registers(m);
}

static void pulse_watchdog(struct second_machine *m)
{
    if (!(m->options & OPTION_WATCHDOG))
        return;
    if (--m->watchdog == 0)
        reset_by_watchdog(m);
}

/* ---- Pins ---- */

static uint8_t edges_on(uint8_t old, uint8_t now, bool rising)
{
    return rising ? (uint8_t)(now & ~old) : (uint8_t)(old & ~now);
}

static void change_pins(struct second_machine *m, unsigned port, uint8_t now)
{
    uint8_t inputs = 15 & ~m->cell[PACR + port];
    uint8_t old = m->pins[port];

    m->pins[port] = now;
    switch (PORTA + port) {
    case PORTA:
        if (edges_on(old, now, m->cell[EDGES] & 1) & inputs & 1)
            m->cell[IRQ] |= EXTERNAL;
        /* The timer counts the falling edge whatever $013 chooses for the request. */
        if (edges_on(old, now, false) & inputs & 1 && (m->cell[TM0] & TM0_SOURCE) == TM0_PIN
            && m->mode != SECOND_STOP)
            count_timer0(m);
        break;
    case PORTB:
    case PORTC:
        if (edges_on(old, now, m->cell[EDGES] & 2) & inputs)
            m->cell[IRQ] |= PORT;
        break;
    default:
        break;
    }
}

/* ---- Cells as an instruction sees them ---- */

/* $00F stands for the cell the pointer names. A pointer at $00F itself needs no case of its own: that cell holds no
   bit, so it reads 0 and ignores writes. */
static unsigned resolve(const struct second_machine *m, unsigned address)
{
    if (address != INX)
        return address;
    return 128u * m->cell[DPH] + 16u * m->cell[DPM] + m->cell[DPL];
}

static uint8_t read_cell(struct second_machine *m, unsigned address)
{
    switch (address) {
    case TL0: {
        uint8_t low = m->frozen_mark ? m->frozen : m->timer0_counter & 15;

        release(m);
        return low;
    }
    case TH0:
        freeze(m);
        return m->timer0_counter >> 4;
    case PORTA: case PORTB: case PORTC: case PORTD: {
        unsigned port = address - PORTA;
        uint8_t outputs = m->cell[PACR + port];

        return (m->pins[port] & ~outputs) | (m->cell[address] & outputs);
    }
    case WDT:
        m->watchdog = period_of(m);
        return m->cell[WDT];
    default:
        return address < SOUND ? m->cell[address] : 0;
    }
}

static void write_cell(struct second_machine *m, unsigned address, uint8_t nibble)
{
    switch (address) {
    case TM0:
        m->cell[TM0] = nibble;
        m->timer0_prescaler = 0;
        break;
    case BTM:
        m->cell[BTM] = nibble;
        m->base_prescaler = 0;
        if (!base_is_on(m))
            m->base_counter = 0;
        break;
    case TL0:
        m->timer0_load = (m->timer0_load & 0xF0) | nibble;
        break;
    case TH0:
        m->timer0_load = (uint8_t)(nibble << 4) | (m->timer0_load & 0x0F);
        m->timer0_counter = m->timer0_load;
        release(m);
        break;
    case BONDING:
        m->cell[BONDING] = (nibble & 0xC) | (m->cell[BONDING] & 3);
        break;
    case RDT0:
        m->cell[RDT0] = nibble;
        m->pending = 1;
        m->pending_address = (uint16_t)(m->cell[RDT2] << 8 | m->cell[RDT1] << 4 | nibble);
        break;
    case WDT:
        m->cell[WDT] = (m->cell[WDT] & WDF) | (nibble & WDT_SELECT);
        m->watchdog = period_of(m);
        break;
    default:
        m->cell[address] = nibble & holds[address];
        break;
    }
}

/* ---- One instruction ---- */

static void push(struct second_machine *m, uint16_t pc)
{
    memmove(m->stack + 1, m->stack, (SECOND_LEVELS - 1) * sizeof m->stack[0]);
    m->stack[0] = (uint16_t)(m->cy << 12 | pc);
}

static uint16_t pop(struct second_machine *m)
{
    uint16_t newest = m->stack[0];

    memmove(m->stack, m->stack + 1, (SECOND_LEVELS - 1) * sizeof m->stack[0]);
    m->stack[SECOND_LEVELS - 1] = 0;
    return newest;
}

static uint8_t sum(struct second_machine *m, unsigned left, unsigned right, unsigned carry)
{
    unsigned total = left + right + carry;

    m->cy = total >> 4 & 1;
    return total & 15;
}

static uint8_t difference(struct second_machine *m, unsigned left, unsigned right, unsigned carry)
{
    return sum(m, left, 15 - right, carry);
}

/* Decimal adjust takes what the cell reads as, whatever AC holds (02, P6); the carry rules are those of 01. */
static uint8_t adjusted_sum(struct second_machine *m, uint8_t nibble)
{
    if (nibble <= 9 && !m->cy)
        return nibble;
    m->cy = 1;
    return (nibble + 6) & 15;
}

static uint8_t adjusted_difference(const struct second_machine *m, uint8_t nibble)
{
    return m->cy ? nibble : (nibble + 10) & 15;
}

/* AC gets the whole result; the cell, in a memory form, stores what it can of it. */
static void conclude(struct second_machine *m, unsigned address, uint8_t result, bool memory_form)
{
    m->ac = result;
    if (memory_form)
        write_cell(m, address, result);
}

static inline bool execute(struct second_machine *m, uint16_t word)
{
    unsigned pc = m->pc;
    unsigned next = (pc & PAGE) | ((pc + 1) & 0x7FF);
    unsigned target = (pc & PAGE) | (word & 0x7FF);
    unsigned banked = word & 0x3FF;
    unsigned near = word & 0x7F;
    unsigned immediate = word >> 7 & 15;
    bool memory_form = word & 0x400;
    unsigned at;

    switch (word >> 11) {
    case 0: /* ADC ADCM */
        at = resolve(m, banked);
        conclude(m, at, sum(m, read_cell(m, at), m->ac, m->cy), memory_form);
        break;
    case 1: /* ADD ADDM */
        at = resolve(m, banked);
        conclude(m, at, sum(m, read_cell(m, at), m->ac, 0), memory_form);
        break;
    case 2: /* SBC SBCM */
        at = resolve(m, banked);
        conclude(m, at, difference(m, read_cell(m, at), m->ac, m->cy), memory_form);
        break;
    case 3: /* SUB SUBM */
        at = resolve(m, banked);
        conclude(m, at, difference(m, read_cell(m, at), m->ac, 1), memory_form);
        break;
    case 4: /* EOR EORM */
        at = resolve(m, banked);
        conclude(m, at, read_cell(m, at) ^ m->ac, memory_form);
        break;
    case 5: /* OR ORM */
        at = resolve(m, banked);
        conclude(m, at, read_cell(m, at) | m->ac, memory_form);
        break;
    case 6: /* AND ANDM */
        at = resolve(m, banked);
        conclude(m, at, read_cell(m, at) & m->ac, memory_form);
        break;
    case 7: /* LDA STA */
        at = resolve(m, banked);
        if (memory_form)
            write_cell(m, at, m->ac);
        else
            m->ac = read_cell(m, at);
        break;
    case 8: /* ADI */
        at = resolve(m, near);
        conclude(m, at, sum(m, read_cell(m, at), immediate, 0), false);
        break;
    case 9: /* ADIM */
        at = resolve(m, near);
        conclude(m, at, sum(m, read_cell(m, at), immediate, 0), true);
        break;
    case 10: /* SBI */
        at = resolve(m, near);
        conclude(m, at, difference(m, read_cell(m, at), immediate, 1), false);
        break;
    case 11: /* SBIM */
        at = resolve(m, near);
        conclude(m, at, difference(m, read_cell(m, at), immediate, 1), true);
        break;
    case 12: /* EORIM */
        at = resolve(m, near);
        conclude(m, at, read_cell(m, at) ^ immediate, true);
        break;
    case 13: /* ORIM */
        at = resolve(m, near);
        conclude(m, at, read_cell(m, at) | immediate, true);
        break;
    case 14: /* ANDIM */
        at = resolve(m, near);
        conclude(m, at, read_cell(m, at) & immediate, true);
        break;
    case 15: /* LDI */
        conclude(m, resolve(m, near), (uint8_t)immediate, true);
        break;
    case 16: /* BNZ */
        if (m->ac != 0)
            next = target;
        break;
    case 17: /* BNC */
        if (m->cy == 0)
            next = target;
        break;
    case 18: /* BAZ */
        if (m->ac == 0)
            next = target;
        break;
    case 19: /* BC */
        if (m->cy != 0)
            next = target;
        break;
    case 20: /* BA0 */
        if (m->ac & 1)
            next = target;
        break;
    case 21: /* BA1 */
        if (m->ac & 2)
            next = target;
        break;
    case 22: /* BA2 */
        if (m->ac & 4)
            next = target;
        break;
    case 23: /* BA3 */
        if (m->ac & 8)
            next = target;
        break;
    case 24: /* CALL */
        push(m, (uint16_t)next);
        next = target;
        break;
    case 25:
        at = resolve(m, near);
        if ((word & 0x780) == 0x300) /* DAA */
            conclude(m, at, adjusted_sum(m, read_cell(m, at)), true);
        else if ((word & 0x780) == 0x500) /* DAS */
            conclude(m, at, adjusted_difference(m, read_cell(m, at)), true);
        else
            return false;
        break;
    case 26:
        if (word <= 0xD0FF) { /* RTNW */
            next = pop(m) & 0xFFF;
            m->cell[TBR] = word >> 4 & 15;
            m->ac = word & 15;
        } else if (word == 0xD400) { /* RTNI */
            uint16_t newest = pop(m);

            next = newest & 0xFFF;
            m->cy = newest >> 12 & 1;
        } else {
            return false;
        }
        break;
    case 27:
        if (word == 0xD800)
            m->mode = SECOND_HALT;
        else if (word == 0xDC00)
            m->mode = SECOND_STOP;
        else
            return false;
        break;
    case 28: /* JMP, both pages */
    case 29:
        next = word & 0xFFF;
        break;
    case 30:
        if (word == 0xF000) { /* SHR */
            m->cy = m->ac & 1;
            m->ac >>= 1;
        } else if (word == 0xF7FF) { /* TJMP */
            next = (pc & 0xF00) | (unsigned)m->cell[TBR] << 4 | m->ac;
        } else {
            return false;
        }
        break;
    default:
        if (word != 0xFFFF) /* NOP */
            return false;
        break;
    }
    m->pc = (uint16_t)next;
    return true;
}

bool second_execute(struct second_machine *machine, uint16_t word)
{
    return execute(machine, word);
}

/* ---- Events ---- */

static void take_interrupt(struct second_machine *m, unsigned requests)
{
    push(m, m->pc);
    if (requests & EXTERNAL)
        m->pc = VECTOR_EXTERNAL;
    else if (requests & TIMER0)
        m->pc = VECTOR_TIMER0;
    else if (requests & BASE)
        m->pc = VECTOR_BASE;
    else
        m->pc = VECTOR_PORT;
    m->cell[IE] = 0;
}

static void land_read(struct second_machine *m, uint16_t word)
{
    m->cell[RDT0] = word & 15;
    m->cell[RDT1] = word >> 4 & 15;
    m->cell[RDT2] = word >> 8 & 15;
    m->cell[RDT3] = word >> 12;
}

/* Answers false, with nothing changed, where the cycle would execute an unlisted word. */
static inline bool cycle(struct second_machine *m, const uint8_t *program)
{
    unsigned requests = m->cell[IE] & m->cell[IRQ];
    uint8_t was_pending = m->pending;
    uint16_t was_address = m->pending_address;

    if (m->mode == SECOND_STOP && !(requests & (EXTERNAL | PORT)))
        return true;

    /* The read of an earlier cycle is taken out first, so that one asked for below is told from it. */
    m->pending = 0;
    m->pending_address = NO_READ;
    if (requests) {
        m->mode = SECOND_RUNNING;
        take_interrupt(m, requests);
    } else if (m->mode == SECOND_RUNNING && !execute(m, word_at(program, m->pc))) {
        m->pending = was_pending;
        m->pending_address = was_address;
        return false;
    }
    if (was_pending)
        land_read(m, word_at(program, was_address));
    clock_timer0(m);
    return true;
}

bool second_is_known(uint8_t event)
{
    return event <= EVENT_RESET || event == EVENT_SOUND || (EVENT_PINS <= event && event <= EVENT_PINS_LAST);
}

/* Every event but the cycle: none of these can be refused. */
static void apply_other(struct second_machine *m, uint8_t event)
{
    if (event >= EVENT_PINS) {
        change_pins(m, (event - EVENT_PINS) >> 4, event & 15);
        return;
    }
    switch (event) {
    case EVENT_BASE:
        pulse_base(m);
        break;
    case EVENT_WATCHDOG:
        pulse_watchdog(m);
        break;
    case EVENT_RESET:
        reset_by_pin(m);
        break;
    default:
        clock_sound(m);
        break;
    }
}

enum second_reason second_run_machine(struct second_machine *machine, const uint8_t *program,
                                      const uint8_t *script, size_t script_len, uint32_t stop, uint64_t *events)
{
    for (size_t done = 0; done < script_len; done++) {
        if (script[done] != EVENT_CYCLE) {
            apply_other(machine, script[done]);
            continue;
        }
        if (!cycle(machine, program)) {
            *events = done;
            return SECOND_AT_UNLISTED;
        }
        if (machine->pc == stop) {
            *events = done + 1;
            return SECOND_AT_ADDRESS;
        }
    }
    *events = script_len;
    return SECOND_AT_END;
}

/* ---- The record ---- */

static const uint8_t *take_byte(const uint8_t *from, uint8_t *field)
{
    *field = from[0];
    return from + 1;
}

static const uint8_t *take_pair(const uint8_t *from, uint16_t *field)
{
    *field = (uint16_t)(from[0] << 8 | from[1]);
    return from + 2;
}

static uint8_t *give_byte(uint8_t *to, uint8_t field)
{
    to[0] = field;
    return to + 1;
}

static uint8_t *give_pair(uint8_t *to, uint16_t field)
{
    to[0] = field >> 8;
    to[1] = field & 0xFF;
    return to + 2;
}

void second_unpack(struct second_machine *machine, const uint8_t *memory, const uint8_t *record)
{
    const uint8_t *from = record;

    memcpy(machine->cell, memory, SECOND_CELLS);
    from = take_pair(from, &machine->pc);
    from = take_byte(from, &machine->ac);
    from = take_byte(from, &machine->cy);
    from = take_byte(from, &machine->mode);
    for (int level = 0; level < SECOND_LEVELS; level++)
        from = take_pair(from, &machine->stack[level]);
    from = take_pair(from, &machine->timer0_prescaler);
    from = take_byte(from, &machine->timer0_counter);
    from = take_byte(from, &machine->timer0_load);
    from = take_byte(from, &machine->base_prescaler);
    from = take_byte(from, &machine->base_counter);
    from = take_pair(from, &machine->watchdog);
    for (int port = 0; port < 4; port++)
        from = take_byte(from, &machine->pins[port]);
    from = take_byte(from, &machine->options);
    from = take_byte(from, &machine->pending);
    from = take_pair(from, &machine->pending_address);
    for (int channel = 0; channel < SECOND_TONES; channel++) {
        from = take_pair(from, &machine->tone[channel].count);
        from = take_byte(from, &machine->tone[channel].output);
    }
    from = take_byte(from, &machine->frozen);
    (void)take_byte(from, &machine->frozen_mark);
}

void second_pack(const struct second_machine *machine, uint8_t *memory, uint8_t *record)
{
    uint8_t *to = record;

    memcpy(memory, machine->cell, SECOND_CELLS);
    to = give_pair(to, machine->pc);
    to = give_byte(to, machine->ac);
    to = give_byte(to, machine->cy);
    to = give_byte(to, machine->mode);
    for (int level = 0; level < SECOND_LEVELS; level++)
        to = give_pair(to, machine->stack[level]);
    to = give_pair(to, machine->timer0_prescaler);
    to = give_byte(to, machine->timer0_counter);
    to = give_byte(to, machine->timer0_load);
    to = give_byte(to, machine->base_prescaler);
    to = give_byte(to, machine->base_counter);
    to = give_pair(to, machine->watchdog);
    for (int port = 0; port < 4; port++)
        to = give_byte(to, machine->pins[port]);
    to = give_byte(to, machine->options);
    to = give_byte(to, machine->pending);
    to = give_pair(to, machine->pending_address);
    for (int channel = 0; channel < SECOND_TONES; channel++) {
        to = give_pair(to, machine->tone[channel].count);
        to = give_byte(to, machine->tone[channel].output);
    }
    to = give_byte(to, machine->frozen);
    (void)give_byte(to, machine->frozen_mark);
}

bool second_is_well_formed(const struct second_machine *m)
{
    if (m->pc >= SECOND_WORDS || m->ac > 15 || m->cy > 1 || m->mode > SECOND_STOP)
        return false;
    for (int level = 0; level < SECOND_LEVELS; level++)
        if (m->stack[level] >= 2 * SECOND_WORDS)
            return false;
    if (m->timer0_prescaler >= timer0_ratio[m->cell[TM0] & TM0_SOURCE])
        return false;
    if (base_is_on(m)) {
        if (m->base_prescaler >= base_ratio[m->cell[BTM] & 3])
            return false;
    } else if (m->base_prescaler != 0 || m->base_counter != 0) {
        return false;
    }
    if (m->watchdog < 1 || m->watchdog > period_of(m))
        return false;
    for (int port = 0; port < 4; port++)
        if (m->pins[port] > 15)
            return false;
    if (m->options > OPTIONS_LAST || (m->cell[BONDING] & 3) != bonding_of(m))
        return false;
    if (m->pending > 1 || m->pending_address >= SECOND_WORDS)
        return false;
    for (int channel = 0; channel < SECOND_TONES; channel++)
        if (m->tone[channel].count > TONE_COUNT_LAST || m->tone[channel].output > 1)
            return false;
    if (m->frozen > 15 || m->frozen_mark > 1 || (m->frozen != 0 && !m->frozen_mark))
        return false;
    return m->pending || m->pending_address == NO_READ;
}

/* ---- Refusals that several calls share ---- */

/* Most memories are good, so the lowest bad cell is looked for only once there is one. */
uint32_t second_judge_memory(const uint8_t *memory, size_t memory_len, uint64_t *value)
{
    uint8_t bad = 0;
    size_t lowest = 0;

    if (memory_len != SECOND_CELLS)
        return answer(value, MEMORY_LENGTH, memory_len);
    for (size_t address = 0; address < SECOND_CELLS; address++)
        bad |= memory[address] & (uint8_t)~holds[address];
    if (!bad)
        return answer(value, DONE, 0);
    while (!(memory[lowest] & (uint8_t)~holds[lowest]))
        lowest++;
    return answer(value, MEMORY_CELL, lowest);
}

/* 2, 3 and 4. *m is the caller's own, so it may be filled in before it is judged. */
static uint32_t judge_machine(struct second_machine *m, const uint8_t *memory, size_t memory_len,
                              const uint8_t *record, size_t record_len, uint64_t *value)
{
    uint32_t refusal = second_judge_memory(memory, memory_len, value);

    if (refusal != DONE)
        return refusal;
    if (record_len != SECOND_RECORD_BYTES)
        return answer(value, RECORD, 0);
    second_unpack(m, memory, record);
    return answer(value, second_is_well_formed(m) ? DONE : RECORD, 0);
}

static bool is_display(uint32_t cell)
{
    return 0x300 <= cell && cell <= 0x348;
}

bool second_is_data_display_or_scan(uint32_t cell)
{
    return (0x020 <= cell && cell <= 0x16F) || is_display(cell) || (0x358 <= cell && cell <= 0x36D);
}

/* ---- Step and run ---- */

uint32_t second_step(const uint8_t *program, size_t program_len, uint8_t *memory, size_t memory_len,
                     uint8_t *record, size_t record_len, uint8_t event, uint64_t *value)
{
    struct second_machine machine;
    uint32_t refusal;

    if (program_len != SECOND_PROGRAM_BYTES)
        return answer(value, PROGRAM_LENGTH, program_len);
    refusal = judge_machine(&machine, memory, memory_len, record, record_len, value);
    if (refusal != DONE)
        return refusal;
    if (!second_is_known(event))
        return answer(value, UNKNOWN_EVENT, 0);
    if (event != EVENT_CYCLE)
        apply_other(&machine, event);
    else if (!cycle(&machine, program))
        return answer(value, UNLISTED, machine.pc);
    second_pack(&machine, memory, record);
    return answer(value, DONE, 0);
}

uint32_t second_run(const uint8_t *program, size_t program_len, uint8_t *memory, size_t memory_len,
                    uint8_t *record, size_t record_len, const uint8_t *script, size_t script_len,
                    uint32_t stop, uint32_t *reason, uint64_t *events, uint64_t *value)
{
    struct second_machine machine;
    enum second_reason why;
    uint32_t refusal;

    if (program_len != SECOND_PROGRAM_BYTES)
        return answer(value, PROGRAM_LENGTH, program_len);
    refusal = judge_machine(&machine, memory, memory_len, record, record_len, value);
    if (refusal != DONE)
        return refusal;
    for (size_t place = 0; place < script_len; place++)
        if (!second_is_known(script[place]))
            return answer(value, UNKNOWN_EVENT, place);
    why = second_run_machine(&machine, program, script, script_len, stop, events);
    *reason = why;
    second_pack(&machine, memory, record);
    if (why == SECOND_AT_UNLISTED)
        return answer(value, UNLISTED, machine.pc);
    return answer(value, DONE, 0);
}

uint32_t second_fresh(uint8_t *memory, size_t memory_len, uint8_t *record, size_t record_len,
                      uint32_t options, uint64_t *value)
{
    struct second_machine machine;

    if (memory_len != SECOND_CELLS)
        return answer(value, MEMORY_LENGTH, memory_len);
    if (record_len != SECOND_RECORD_BYTES)
        return answer(value, RECORD, 0);
    if (options > OPTIONS_LAST)
        return answer(value, OPTIONS, options);
    memset(&machine, 0, sizeof machine);
    machine.options = (uint8_t)options;
    reset_by_pin(&machine);
    second_pack(&machine, memory, record);
    return answer(value, DONE, 0);
}

/* ---- The list of writers ---- */

uint32_t second_list(const uint8_t *program, size_t program_len, uint32_t cell,
                     uint8_t *addresses, size_t room, uint64_t *count, uint64_t *value)
{
    enum { UNASKED, CHANGES, KEEPS };
    uint8_t known[0x10000];
    uint16_t writers[SECOND_WORDS];
    size_t found = 0;

    if (program_len != SECOND_PROGRAM_BYTES)
        return answer(value, PROGRAM_LENGTH, program_len);
    if (!second_is_data_display_or_scan(cell))
        return answer(value, ASKED_CELL, cell);
    memset(known, UNASKED, sizeof known);
    for (unsigned address = 0; address < SECOND_WORDS; address++) {
        uint16_t word = word_at(program, address);

        if (known[word] == UNASKED)
            known[word] = search_changes(word, (uint16_t)cell) ? CHANGES : KEEPS;
        if (known[word] == CHANGES)
            writers[found++] = (uint16_t)address;
    }
    if (room < 2 * found)
        return answer(value, ROOM, 2 * found);
    for (size_t place = 0; place < found; place++)
        (void)give_pair(addresses + 2 * place, writers[place]);
    *count = 2 * found;
    return answer(value, DONE, 0);
}

/* ---- Panel book, picture and level ---- */

enum {
    KIND_PROGRAM = 1, KIND_WIRING = 2, KIND_LEVEL = 3, KINDS = 3,
    ENTRY_BYTES = 5, CONTENTS_BYTES = 1 + KINDS * ENTRY_BYTES,
    ELEMENT_BYTES = 3, ELEMENTS_LAST = 240, LEVEL_BYTES = 5, GROUND_LAST = 63, DIGIT_LAST = 7
};

static uint16_t pair_at(const uint8_t *bytes)
{
    return (uint16_t)(bytes[0] << 8 | bytes[1]);
}

bool second_is_wiring_length(size_t length)
{
    return length >= ELEMENT_BYTES && length <= ELEMENT_BYTES * ELEMENTS_LAST && length % ELEMENT_BYTES == 0;
}

bool second_is_good_wiring(const uint8_t *body, size_t length)
{
    for (size_t place = 0; place < length; place += ELEMENT_BYTES)
        if (!is_display(pair_at(body + place)) || body[place + 2] > 3)
            return false;
    return true;
}

static bool is_good_level(const uint8_t *body)
{
    uint16_t high = pair_at(body);
    uint16_t low = pair_at(body + 2);

    return second_is_data_display_or_scan(high) && second_is_data_display_or_scan(low) && high != low
           && body[4] <= GROUND_LAST;
}

uint32_t second_level(const uint8_t *memory, size_t memory_len, const uint8_t *body, size_t body_len,
                      int32_t *level, uint64_t *value)
{
    uint32_t refusal = second_judge_memory(memory, memory_len, value);
    uint8_t high, low;

    if (refusal != DONE)
        return refusal;
    if (body_len != LEVEL_BYTES)
        return answer(value, LENGTH, 0);
    if (!is_good_level(body))
        return answer(value, BODY, KIND_LEVEL);
    high = memory[pair_at(body)];
    low = memory[pair_at(body + 2)];
    if (high > DIGIT_LAST)
        return answer(value, DIGIT, 0);
    if (low > DIGIT_LAST)
        return answer(value, DIGIT, 1);
    *level = 8 * high + low - body[4];
    return answer(value, DONE, 0);
}

uint32_t second_picture(const uint8_t *memory, size_t memory_len, const uint8_t *record, size_t record_len,
                        const uint8_t *body, size_t body_len, uint8_t *picture, size_t room,
                        uint64_t *count, uint64_t *value)
{
    struct second_machine machine;
    uint32_t refusal = judge_machine(&machine, memory, memory_len, record, record_len, value);
    size_t elements = body_len / ELEMENT_BYTES;
    bool lit;

    if (refusal != DONE)
        return refusal;
    if (!second_is_wiring_length(body_len))
        return answer(value, LENGTH, 0);
    if (!second_is_good_wiring(body, body_len))
        return answer(value, BODY, KIND_WIRING);
    if (room < elements)
        return answer(value, ROOM, elements);
    lit = (machine.cell[LCD] & LCDON) && machine.mode != SECOND_STOP;
    for (size_t element = 0; element < elements; element++) {
        const uint8_t *wire = body + ELEMENT_BYTES * element;

        picture[element] = lit ? machine.cell[pair_at(wire)] >> wire[2] & 1 : 0;
    }
    *count = elements;
    return answer(value, DONE, 0);
}

/* The contents say nothing that the three lengths don't settle, so a book's contents are good exactly when they are
   the ones that would be written for these lengths. */
static void make_contents(uint8_t contents[CONTENTS_BYTES], const size_t length[KINDS])
{
    uint8_t *to = give_byte(contents, KINDS);
    size_t offset = CONTENTS_BYTES;

    for (int kind = KIND_PROGRAM; kind <= KIND_LEVEL; kind++) {
        to = give_byte(to, (uint8_t)kind);
        to = give_pair(to, (uint16_t)offset);
        to = give_pair(to, (uint16_t)length[kind - 1]);
        offset += length[kind - 1];
    }
}

uint32_t second_book_read(const uint8_t *book, size_t book_len, uint64_t *program, uint64_t *program_len,
                          uint64_t *wiring, uint64_t *wiring_len, uint64_t *level, uint64_t *level_len,
                          uint64_t *value)
{
    const size_t wiring_at = CONTENTS_BYTES + SECOND_PROGRAM_BYTES;
    uint8_t contents[CONTENTS_BYTES];
    size_t length[KINDS] = {SECOND_PROGRAM_BYTES, 0, LEVEL_BYTES};
    size_t level_at;

    if (book_len < wiring_at + LEVEL_BYTES)
        return answer(value, LENGTH, 0);
    length[1] = book_len - wiring_at - LEVEL_BYTES;
    if (!second_is_wiring_length(length[1]))
        return answer(value, LENGTH, 0);
    make_contents(contents, length);
    if (memcmp(book, contents, CONTENTS_BYTES) != 0)
        return answer(value, LENGTH, 0);
    level_at = wiring_at + length[1];
    if (!second_is_good_wiring(book + wiring_at, length[1]))
        return answer(value, BODY, KIND_WIRING);
    if (!is_good_level(book + level_at))
        return answer(value, BODY, KIND_LEVEL);
    *program = CONTENTS_BYTES;
    *program_len = SECOND_PROGRAM_BYTES;
    *wiring = wiring_at;
    *wiring_len = length[1];
    *level = level_at;
    *level_len = LEVEL_BYTES;
    return answer(value, DONE, 0);
}

uint32_t second_book_write(const uint8_t *program, size_t program_len, const uint8_t *wiring, size_t wiring_len,
                           const uint8_t *level, size_t level_len, uint8_t *book, size_t room,
                           uint64_t *count, uint64_t *value)
{
    const size_t length[KINDS] = {program_len, wiring_len, level_len};
    size_t needed;

    if (program_len != SECOND_PROGRAM_BYTES || !second_is_wiring_length(wiring_len) || level_len != LEVEL_BYTES)
        return answer(value, LENGTH, 0);
    if (!second_is_good_wiring(wiring, wiring_len))
        return answer(value, BODY, KIND_WIRING);
    if (!is_good_level(level))
        return answer(value, BODY, KIND_LEVEL);
    needed = CONTENTS_BYTES + program_len + wiring_len + level_len;
    if (room < needed)
        return answer(value, ROOM, needed);
    make_contents(book, length);
    memcpy(book + CONTENTS_BYTES, program, program_len);
    memcpy(book + CONTENTS_BYTES + program_len, wiring, wiring_len);
    memcpy(book + CONTENTS_BYTES + program_len + wiring_len, level, level_len);
    *count = needed;
    return answer(value, DONE, 0);
}
