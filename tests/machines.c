/* Well-formed machines, programs, scripts and wirings made at random, drawn so that the rare things happen often:
   interrupts, wakes, pending reads, overflows, watchdog resets, tones that turn, Timer0's counter read half by half,
   stores through the pointer at registers. */
#include "support.h"

#include <string.h>

unsigned two(const uint8_t *bytes)
{
    return (unsigned)bytes[0] << 8 | bytes[1];
}

void set_two(uint8_t *bytes, unsigned number)
{
    bytes[0] = (uint8_t)(number >> 8);
    bytes[1] = (uint8_t)number;
}

/* ---- The rules of a lent machine (01, What is lent) ---- */

bool is_display(uint32_t cell)
{
    return cell >= 0x300 && cell <= 0x348;
}

bool is_askable(uint32_t cell)
{
    return (cell >= 0x020 && cell <= 0x16F) || is_display(cell) || (cell >= 0x358 && cell <= 0x36D);
}

uint8_t bits_held(unsigned address)
{
    switch (address) {
    case 0x004: case 0x005: case 0x006: case 0x00F: case 0x01F:
        return 0;
    case 0x007: case 0x011: case 0x012:
        return 7;
    case 0x014:
        return 11;
    default:
        return address < 0x020 || is_askable(address) || (address >= 0x370 && address <= 0x377) ? 15 : 0;
    }
}

/* 1 for pin counting, so that the prescaler lies below it as everywhere. */
unsigned ratio_of(uint8_t timer0_mode)
{
    static const unsigned ratios[8] = {2048, 512, 128, 32, 8, 4, 2, 1};

    return ratios[timer0_mode & 7];
}

unsigned base_ratio_of(uint8_t base_mode)
{
    static const unsigned ratios[4] = {1, 4, 8, 16};

    return ratios[base_mode & 3];
}

unsigned period_of(uint8_t watchdog_register)
{
    static const unsigned periods[8] = {4096, 1024, 256, 128, 64, 16, 4, 1};

    return periods[watchdog_register & 7];
}

bool base_is_on(uint8_t base_mode)
{
    return (base_mode & 8) && !(base_mode & 4);
}

bool is_unlisted(uint16_t word)
{
    if (word < 0xC800 || (word >= 0xE000 && word <= 0xEFFF))
        return false;
    if ((word >= 0xCB00 && word <= 0xCB7F) || (word >= 0xCD00 && word <= 0xCD7F) || (word >= 0xD000 && word <= 0xD0FF))
        return false;
    return word != 0xD400 && word != 0xD800 && word != 0xDC00 && word != 0xF000 && word != 0xF7FF && word != 0xFFFF;
}

bool is_known(unsigned event)
{
    return event <= RESET_PIN || event == SOUND_CLOCK || (event >= PINS_A && event <= PINS_D + 15);
}

/* ---- What a word does with a cell (01, Instruction words; One instruction) ---- */

/* By bits 15-11. */
enum {
    LDA_CODE = 7, ADI_CODE = 8, ADIM_CODE = 9, SBI_CODE = 10, ORIM_CODE = 13, ANDIM_CODE = 14, LDI_CODE = 15,
    BRANCH_CODE = 16, DECIMAL_CODE = 25
};

unsigned pointer_of(const uint8_t memory[MEMORY_BYTES])
{
    return 128u * memory[0x012] + 16u * memory[0x011] + memory[0x010];
}

struct touch touch_of(uint16_t word, unsigned pointer)
{
    unsigned code = word >> 11, named = word & (code < ADI_CODE ? 0x3FF : 0x7F);
    bool through_pointer = named == 0x00F;
    struct touch touch = {through_pointer ? pointer : named, through_pointer, true, true};

    if (is_unlisted(word) || (code >= BRANCH_CODE && code != DECIMAL_CODE))
        return (struct touch){0, false, false, false};
    if (code < ADI_CODE)
        touch.writes = word & 0x400;
    else
        touch.writes = code != ADI_CODE && code != SBI_CODE;
    touch.reads = !(code == LDA_CODE && touch.writes) && code != LDI_CODE;
    return touch;
}

/* ---- Machines ---- */

/* Often close below the end, so that a count soon comes round. */
static unsigned near_end(unsigned below)
{
    unsigned last = below < 6 ? below : 6;

    return any(2) ? below - 1 - any(last) : any(below);
}

static const uint16_t pointed_at[] = {
    0x000, 0x001, 0x002, 0x003, 0x004, 0x005, 0x006, 0x007, 0x008, 0x009, 0x00A, 0x00B, 0x00C, 0x00D, 0x00E, 0x00F,
    0x010, 0x011, 0x012, 0x013, 0x014, 0x015, 0x016, 0x017, 0x018, 0x019, 0x01A, 0x01B, 0x01C, 0x01D, 0x01E, 0x01F,
    0x01A, 0x01E, 0x004, 0x005, 0x004, 0x005, 0x002, 0x003, 0x000, 0x001, 0x020, 0x16F, 0x170, 0x300, 0x348, 0x349,
    0x358, 0x36D, 0x36E, 0x370, 0x377, 0x378, 0x3FF};

/* Often a tone with a short period, sometimes none at all. */
static unsigned any_tone(void)
{
    static const uint8_t quick[] = {0x40, 0x60, 0x70, 0x78, 0x7C, 0x7E, 0x7F, 0x3F};

    return any(2) ? quick[any(sizeof quick)] : any(8) ? any(128) : 0;
}

static void tune(uint8_t *memory, unsigned low, unsigned high)
{
    unsigned value = any_tone();

    memory[low] = value & 15;
    memory[high] = (uint8_t)((any(4) ? 0 : 8) | value >> 4);
}

/* Channels that mostly run, at any count, often a low one. */
static void random_sound(struct machine *machine)
{
    tune(machine->memory, 0x371, 0x372);
    tune(machine->memory, 0x375, 0x376);
    if (any(4))
        machine->memory[0x370] &= 12;
    if (any(4))
        machine->memory[0x377] |= 3;
    for (int channel = 0; channel < CHANNELS; channel++) {
        uint8_t *fields = machine->record + R_SOUND_BYTES * channel;

        set_two(fields + R_SOUND_COUNT, any(2) ? any(4) : any(SOUND_COUNTS));
        fields[R_SOUND_OUTPUT] = (uint8_t)any(2);
    }
}

void set_frozen(struct machine *machine, bool frozen)
{
    machine->record[R_FROZEN] = (uint8_t)(frozen && any(4) ? any(16) : 0);
    machine->record[R_FROZEN_MARK] = frozen;
}

void random_machine(struct machine *machine)
{
    static uint8_t held_bits[MEMORY_BYTES]; /* bits_held of every cell, since this is done very often */
    uint8_t *memory = machine->memory, *record = machine->record;
    unsigned pointer = any(3) ? pointed_at[any(sizeof pointed_at / sizeof pointed_at[0])] : any(1024);
    unsigned options = any(8);

    if (held_bits[0] == 0)
        for (unsigned address = 0; address < MEMORY_BYTES; address++)
            held_bits[address] = bits_held(address);
    memset(record, 0, RECORD_BYTES);
    for (unsigned address = 0; address < MEMORY_BYTES; address += 16) {
        uint64_t nibbles = any_64();

        for (unsigned at = address; at < address + 16; at++, nibbles >>= 4)
            memory[at] = (uint8_t)(nibbles & 15 & held_bits[at]);
    }
    memory[0x010] = pointer & 15;
    memory[0x011] = pointer >> 4 & 7;
    memory[0x012] = (uint8_t)(pointer >> 7);
    memory[0x00C] = (uint8_t)(any(4) << 2 | options >> 1);
    if (any(2))
        memory[0x000] = 0;
    if (any(2))
        memory[0x002] |= 4;
    if (any(2))
        memory[0x003] = (uint8_t)(8 | any(4));
    if (any(2))
        memory[0x01E] = (uint8_t)(any(2) << 3 | 5 | any(3));

    set_two(record + R_PC, any(4096));
    record[R_AC] = (uint8_t)any(16);
    record[R_CY] = (uint8_t)any(2);
    record[R_MODE] = (uint8_t)(any(4) ? RUNNING : any(3));
    for (int level = 0; level < 8; level++)
        set_two(record + R_STACK + 2 * level, any(4) ? any(8192) : 0);
    set_two(record + R_T0_PRESCALER, near_end(ratio_of(memory[0x002])));
    record[R_T0_COUNTER] = (uint8_t)near_end(256);
    record[R_T0_LOAD] = (uint8_t)near_end(256);
    if (base_is_on(memory[0x003])) {
        record[R_BASE_PRESCALER] = (uint8_t)near_end(base_ratio_of(memory[0x003]));
        record[R_BASE_COUNTER] = (uint8_t)near_end(256);
    }
    set_two(record + R_WATCHDOG, 1 + (any(2) ? any(period_of(memory[0x01E]))
                                             : any(period_of(memory[0x01E]) < 8 ? period_of(memory[0x01E]) : 8)));
    for (int port = 0; port < 4; port++)
        record[R_PINS + port] = (uint8_t)any(16);
    record[R_OPTIONS] = (uint8_t)options;
    if (any(2)) {
        record[R_PENDING] = 1;
        set_two(record + R_PENDING_ADDRESS, any(4096));
    }
    random_sound(machine);
    set_frozen(machine, any(2));
}

void nudge(struct machine *machine)
{
    uint8_t *memory = machine->memory, *record = machine->record;

    if (record[R_MODE] != RUNNING && memory[0x000] == 0)
        memory[0x000] = (uint8_t)any(16);
    if (any(2))
        record[R_T0_COUNTER] = (uint8_t)near_end(256);
    if (any(2) && base_is_on(memory[0x003]))
        record[R_BASE_COUNTER] = (uint8_t)near_end(256);
    if (any(4) == 0)
        memory[0x001] = (uint8_t)(any(16) & any(16));
    for (unsigned control = 0x016; control < 0x019; control++)
        if (any(4) == 0)
            memory[control] = 0;
    if (any(4) == 0)
        random_sound(machine);
    if (any(4) == 0)
        set_frozen(machine, any(2));
}

/* ---- Programs ---- */

/* What a word may be about, and how much of its words each mix gives to it. */
enum topic {
    BANKED, ON_REGISTERS, IMMEDIATE, POINTER_SET, POINTER_USE, BRANCH, CALLING, RETURNING, JUMPING, TABLE_JUMP, DECIMAL,
    SLEEP_HALT, SLEEP_STOP, PLAIN, ENABLE, REQUEST, READ_ROM, TIMERS, HALVES, WATCHDOG, ON_SOUND, WHATEVER, TOPICS
};

static const uint8_t weight[MIXES][TOPICS] = {
    /* the topics in their order */
    [MIX_BUSY]   = {16, 10, 12, 6, 10, 8, 3, 3, 2, 1, 4, 1, 1, 5, 5, 5, 4, 3, 5, 2, 2, 0},
    [MIX_TIMERS] = {8, 8, 8, 4, 6, 6, 2, 4, 2, 0, 2, 2, 0, 6, 10, 8, 2, 26, 20, 4, 2, 0},
    [MIX_ASLEEP] = {8, 6, 8, 4, 4, 6, 2, 4, 2, 0, 2, 10, 10, 4, 18, 8, 2, 4, 5, 2, 2, 0},
    [MIX_READS]  = {8, 8, 8, 8, 12, 4, 2, 2, 2, 0, 2, 1, 1, 4, 4, 3, 30, 2, 5, 1, 2, 0},
    [MIX_NESTED] = {8, 6, 8, 4, 6, 8, 18, 16, 4, 3, 2, 1, 0, 4, 6, 5, 2, 2, 5, 0, 2, 0},
    [MIX_ANY]    = {10, 5, 10, 5, 5, 5, 5, 5, 2, 1, 2, 1, 1, 3, 5, 3, 5, 3, 5, 2, 2, 20},
};

static enum topic any_topic(enum mix mix)
{
    unsigned total = 0, drawn;
    int topic;

    for (topic = 0; topic < TOPICS; topic++)
        total += weight[mix][topic];
    drawn = any(total);
    for (topic = 0; drawn >= weight[mix][topic]; topic++)
        drawn -= weight[mix][topic];
    return (enum topic)topic;
}

static unsigned banked(unsigned cell)
{
    return any(16) << 10 | cell;
}

static unsigned immediate(unsigned code, unsigned number, unsigned cell)
{
    return code << 11 | number << 7 | cell;
}

/* A form that reads the cell and does not write it. */
static unsigned reading(unsigned cell)
{
    return any(2) ? any(8) << 11 | cell : immediate(any(2) ? ADI_CODE : SBI_CODE, any(16), cell);
}

/* Timer0's halves, more often read than written. */
static unsigned on_halves(void)
{
    unsigned half = 0x04 + any(2);

    switch (any(8)) {
    case 0:
        return banked(half);
    case 1:
        return immediate(8 + any(8), any(16), half);
    case 2:
        return (any(2) ? 0xCB00u : 0xCD00u) + half;
    default:
        return reading(half);
    }
}

static unsigned any_word(enum mix mix)
{
    static const uint8_t timer_registers[] = {0x02, 0x03, 0x04, 0x05, 0x02, 0x05};
    static const uint8_t rom_registers[] = {0x1A, 0x1A, 0x1A, 0x1B, 0x1C, 0x1D};
    static const uint16_t plain[] = {0xF000, 0xFFFF};

    switch (any_topic(mix)) {
    case BANKED:
        return banked(any(2) ? any(1024) : 0x020 + any(0x150));
    case ON_REGISTERS:
        return any(2) ? banked(any(32)) : immediate(8 + any(8), any(16), any(32));
    case IMMEDIATE:
        return immediate(8 + any(8), any(16), any(128));
    case POINTER_SET:
        switch (any(4)) {
        case 0:
            return immediate(LDI_CODE, any(16), 0x10);
        case 1:
            return immediate(LDI_CODE, any(2), 0x11);
        case 2:
            return immediate(LDI_CODE, any(3) ? 0 : any(8), 0x12);
        default:
            return immediate(ADIM_CODE, 1, 0x10);
        }
    case POINTER_USE:
        switch (any(3)) {
        case 0:
            return immediate(8 + any(8), any(16), 0x0F);
        case 1:
            return banked(0x0F);
        default:
            return any(8) ? banked(0x0F) : (any(2) ? 0xCB0Fu : 0xCD0Fu);
        }
    case BRANCH:
        return 0x8000 + any(0x4000);
    case CALLING:
        return 0xC000 + any(0x800);
    case RETURNING:
        return any(2) ? 0xD400 : 0xD000 + any(0x100);
    case JUMPING:
        return 0xE000 + any(0x1000);
    case TABLE_JUMP:
        return 0xF7FF;
    case DECIMAL:
        return (any(2) ? 0xCB00u : 0xCD00u) + any(128);
    case SLEEP_HALT:
        return 0xD800;
    case SLEEP_STOP:
        return 0xDC00;
    case PLAIN:
        return plain[any(2)];
    case ENABLE:
        return immediate(any(2) ? LDI_CODE : ORIM_CODE, 1 + any(15), 0x00);
    case REQUEST:
        return immediate(any(2) ? LDI_CODE : ANDIM_CODE, any(16), 0x01);
    case READ_ROM:
        return any(2) ? immediate(8 + any(8), any(16), rom_registers[any(6)]) : banked(rom_registers[any(6)]);
    case TIMERS:
        return any(3) ? immediate(LDI_CODE, any(16), timer_registers[any(6)])
                      : banked(timer_registers[any(6)]);
    case HALVES:
        return on_halves();
    case WATCHDOG:
        return any(2) ? immediate(LDI_CODE, 4 + any(4), 0x1E) : banked(0x1E);
    case ON_SOUND:
        return banked(0x370 + any(8));
    default:
        return any(0x10000);
    }
}

/* Timer0's halves read one after the other, the high one first, each by its name or through the pointer, at many places
   of the program. */
static void put_halves(uint8_t program[PROGRAM_BYTES])
{
    enum { FIRST = 8, APART = 24, SPREAD = 64, LONGEST = 12, BETWEEN = 3 };

    for (unsigned start = FIRST + any(SPREAD); start + LONGEST < WORDS; start += APART + any(SPREAD)) {
        uint8_t *to = program + 2 * start;

        for (unsigned half = 0x05; half >= 0x04; half--, to += 2 * any(BETWEEN)) {
            bool through_pointer = any(3) == 0;

            for (unsigned digit = 0; through_pointer && digit < 3; digit++, to += 2)
                set_two(to, immediate(LDI_CODE, digit == 0 ? half : 0, 0x10 + digit));
            set_two(to, reading(through_pointer ? 0x0F : half));
            to += 2;
        }
    }
}

/* A sleep is mostly entered with something enabled, or the chip would seldom wake, and half of the programs return
   from interrupts or go elsewhere at once. One word in two thousand is unlisted, more in the mix of whatever. */
void random_program(uint8_t program[PROGRAM_BYTES], enum mix mix)
{
    for (unsigned address = 0; address < WORDS; address++) {
        unsigned word = any_word(mix);

        if (any(2000) == 0)
            word = 0xF800 + any(0x7FF);
        set_two(program + 2 * address, word);
        if ((word == 0xD800 || word == 0xDC00) && address > 4 && any(16))
            set_two(program + 2 * address - 2, immediate(LDI_CODE, word == 0xD800 ? 1 + any(15) : 9, 0x00));
    }
    put_halves(program);
    if (any(2))
        for (unsigned vector = 1; vector <= 4; vector++)
            set_two(program + 2 * vector, any(3) ? 0xD400 : 0xE000 + any(WORDS));
}

/* Of a thousand events; the rest are cycles. */
static const struct {
    uint16_t base, watchdog, reset, pins, sound;
} events_of[MIXES] = {
    [MIX_BUSY]   = {20, 10, 1, 60, 30},
    [MIX_TIMERS] = {150, 20, 1, 100, 30},
    [MIX_ASLEEP] = {60, 10, 1, 150, 60},
    [MIX_READS]  = {10, 5, 1, 20, 20},
    [MIX_NESTED] = {20, 5, 1, 40, 20},
    [MIX_ANY]    = {250, 100, 20, 300, 60},
};

enum { SOUND_ROW = 16 };

/* One sound clock, or a row of them; answers the place of the last. */
static size_t sound_clocks(uint8_t *script, size_t place, size_t length)
{
    for (unsigned row = any(2) ? 1 : 1 + any(SOUND_ROW); row > 1 && place + 1 < length; row--)
        script[place++] = SOUND_CLOCK;
    script[place] = SOUND_CLOCK;
    return place;
}

void random_script(uint8_t *script, size_t length, enum mix mix)
{
    for (size_t place = 0; place < length; place++) {
        unsigned drawn = any(1000);

        if (drawn < events_of[mix].pins)
            script[place] = (uint8_t)(any(3) ? 0x10 + any(0x40) : PINS_A + any(2));
        else if ((drawn -= events_of[mix].pins) < events_of[mix].base)
            script[place] = BASE_PULSE;
        else if ((drawn -= events_of[mix].base) < events_of[mix].watchdog)
            script[place] = WATCHDOG_PULSE;
        else if ((drawn -= events_of[mix].watchdog) < events_of[mix].reset)
            script[place] = RESET_PIN;
        else if (drawn - events_of[mix].reset < events_of[mix].sound)
            place = sound_clocks(script, place, length);
        else
            script[place] = CYCLE;
    }
}

/* ---- Wirings ---- */

void random_wiring(uint8_t *body, unsigned elements)
{
    for (unsigned element = 0; element < elements; element++) {
        set_two(body + 3 * element, 0x300 + any(0x49));
        body[3 * element + 2] = (uint8_t)any(4);
    }
}
