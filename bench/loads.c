/* The loads that are measured: programs drawn at random from fixed seeds, their scripts, and a panel. */
#include "loads.h"

#include "../desk/galhoveia.h"

#include <string.h>

enum {
    LDA = 7 << 11, STA = LDA | 1 << 10, ANDIM = 14 << 11, LDI = 15 << 11, CALL = 0xC000, DAA = 0xCB00, DAS = 0xCD00,
    RTNW = 0xD000, RTNI = 0xD400, HALT = 0xD800, STOP = 0xDC00, JMP = 0xE000, SHR = 0xF000, TJMP = 0xF7FF, NOP = 0xFFFF
};
enum { UNLISTED = 0xC800, UNLISTED_WORDS = 0x300 }; /* those behind CALL */
enum {
    IE = 0x000, IRQ = 0x001, TM0 = 0x002, TL0 = 0x004, TH0 = 0x005, PORTA = 0x008, PORTB = 0x009, PORTC = 0x00A,
    PORTD = 0x00B, TBR = 0x00E, INX = 0x00F, DPL = 0x010, DPM = 0x011, DPH = 0x012, PDCR = 0x019, RDT0 = 0x01A,
    RDT1 = 0x01B, RDT2 = 0x01C, RDT3 = 0x01D, WDT = 0x01E
};
enum {
    DATA = 0x020, DATA_CELLS = 0x150, NEAR_DATA_CELLS = 0x60, DISPLAY = 0x300, DISPLAY_CELLS = 0x49, PAGE = 0x800,
    PINS = 64
};

/* Each program begins its draws anew, so that it does not hang on what was made before it; its script goes on with
   them. */
enum { MIXED_SEED = 67, CALLS_SEED = 54, FORMS_SEED = 17, CARS_SEED = 2, WORDS_SEED = 29, PANEL_SEED = 6754 };

static uint32_t seed;

static unsigned any(unsigned below)
{
    seed = seed * 1664525u + 1013904223u;
    return (seed >> 16) % below;
}

static void put(uint8_t *program, unsigned address, unsigned word)
{
    program[2 * address] = (uint8_t)(word >> 8);
    program[2 * address + 1] = (uint8_t)word;
}

static uint16_t word_at(const uint8_t *program, unsigned address)
{
    return (uint16_t)(program[2 * address] << 8 | program[2 * address + 1]);
}

void only_nops(uint8_t *program)
{
    memset(program, 0xFF, GALHOVEIA_PROGRAM_BYTES);
}

void only_writers(uint8_t *program, unsigned cell)
{
    for (unsigned address = 0; address < GALHOVEIA_WORDS; address++)
        put(program, address, STA | cell);
}

/* Timer0's count is read and loaded, the watchdog restarted. */
void general_words(uint8_t *program)
{
    static const unsigned words[] = {LDA | TL0, STA | TL0, STA | WDT};

    for (unsigned address = 0; address < GALHOVEIA_WORDS; address++)
        put(program, address, words[address % (sizeof words / sizeof words[0])]);
}

/* ---- The mixed program ---- */

/* Where mixed words call to: a word that returns at once. */
enum { SUBROUTINE = 0x7F0 };

static unsigned with_accumulator(unsigned cell)
{
    return any(16) << 10 | cell;
}

static unsigned with_immediate(unsigned cell)
{
    unsigned form = 8 + any(8);

    return form << 11 | any(16) << 7 | cell;
}

static unsigned with_either(unsigned cell)
{
    return any(2) ? with_accumulator(cell) : with_immediate(cell);
}

static unsigned decimals[] = {DAS, DAA};

void without_decimals(void)
{
    decimals[0] = decimals[1] = LDA;
}

/* The forms a program is made of, on data cells, some through the pointer; branches lead a few words on. */
static unsigned mixed_word(unsigned address)
{
    unsigned drawn = any(100), data = DATA + any(NEAR_DATA_CELLS);

    if (drawn < 35) {
        unsigned form = any(16);

        return form << 10 | (DATA + any(DATA_CELLS));
    }
    if (drawn < 65)
        return with_immediate(data);
    if (drawn < 73)
        return with_either(INX);
    if (drawn < 88) {
        unsigned form = 16 + any(8);

        return form << 11 | ((address + 1 + any(3)) & (PAGE - 1));
    }
    if (drawn < 93)
        return CALL | SUBROUTINE;
    if (drawn < 96)
        return decimals[any(2)] | data;
    return any(2) ? SHR : NOP;
}

/* A lower half full of mixed words; running into the subroutine leads back to $000. */
void mixed(uint8_t *program)
{
    seed = MIXED_SEED;
    only_nops(program);
    for (unsigned address = 0; address < PAGE; address++)
        put(program, address, mixed_word(address));
    put(program, SUBROUTINE, RTNI);
}

/* ---- Calls and registers ---- */

/* The page: vectors, handlers, the main part from START up to the routines, a table with its lookup, and the
   subroutine of mixed words. */
enum {
    SOURCES = 4, HANDLERS = 0x008, HANDLER_WORDS = 2, START = HANDLERS + SOURCES * HANDLER_WORDS,
    ROUTINES = 0x400, ROUTINE_WORDS = 8, TABLE = 0x700, TABLE_WORDS = 0x80, LOOKUP = TABLE + TABLE_WORDS
};

/* What a program touches as it runs: interrupts, Timer0's count, ports, the table branch register, the pointer and
   the read of program data. */
static unsigned any_register(void)
{
    static const uint8_t touched[] = {IE, IRQ, TL0, TH0, PORTA, PORTB, PORTC, PORTD, TBR, DPL, DPM, RDT0, RDT1, RDT2,
                                      RDT3};

    return touched[any(sizeof touched)];
}

static unsigned load_immediate(unsigned cell, unsigned nibble)
{
    return LDI | nibble << 7 | cell;
}

/* DPH is 0 or 6, so that the pointer stands at registers, data, display or scan cells. */
static unsigned register_word(void)
{
    unsigned drawn = any(100);

    if (drawn < 8)
        return CALL | LOOKUP;
    if (drawn < 14)
        return load_immediate(DPH, 6 * any(2));
    return with_either(any_register());
}

static unsigned register_or_mixed(unsigned address)
{
    return any(100) < 23 ? register_word() : mixed_word(address);
}

static unsigned main_word(unsigned address)
{
    if (any(100) < 5)
        return CALL | (ROUTINES + ROUTINE_WORDS * any((TABLE - ROUTINES) / ROUTINE_WORDS));
    return register_or_mixed(address);
}

static unsigned routine_word(unsigned address)
{
    if (address % ROUTINE_WORDS == ROUTINE_WORDS - 1)
        return any(2) ? RTNI : RTNW | any(256);
    return register_or_mixed(address);
}

/* A handler takes back its request and leaves it to the main part to enable interrupts again, so that no request,
   however often it comes, keeps the main part from going on. */
static void put_handlers(uint8_t *program)
{
    put(program, 0, JMP | START);
    for (unsigned source = 0; source < SOURCES; source++) {
        unsigned handler = HANDLERS + HANDLER_WORDS * source, request = 8 >> source;

        put(program, 1 + source, JMP | handler);
        put(program, handler, ANDIM | (15 ^ request) << 7 | IRQ);
        put(program, handler + 1, RTNI);
    }
}

/* TBR, which the lookup keeps below 8, and AC choose a word of the table. */
static void put_table(uint8_t *program)
{
    for (unsigned address = TABLE; address < LOOKUP; address++)
        put(program, address, RTNW | any(256));
    put(program, LOOKUP, ANDIM | 7 << 7 | TBR);
    put(program, LOOKUP + 1, LDA | DATA);
    put(program, LOOKUP + 2, TJMP);
}

/* A little over a third of the words executed call, return, look up or touch registers. Only the main part calls
   routines, so that the stack never overflows; a branch out of a routine leads into the next, which returns in its
   place. Running from the main part into a routine leads back to $000. */
void calls_and_registers(uint8_t *program)
{
    seed = CALLS_SEED;
    only_nops(program);
    put_handlers(program);
    put(program, START, load_immediate(TM0, 8 | 4)); /* with reload, a count for every eight cycles */
    put(program, START + 1, load_immediate(PDCR, 15));
    for (unsigned address = START + 2; address < ROUTINES; address++)
        put(program, address, main_word(address));
    for (unsigned address = ROUTINES; address < TABLE; address++)
        put(program, address, routine_word(address));
    put_table(program);
    put(program, SUBROUTINE, RTNI);
}

/* ---- Every form ---- */

/* The words of each form behind the 32 that bits 15 to 10 or 11 choose, unlisted ones last: the first and how many. */
static const struct {
    unsigned first, words;
} forms[] = {{CALL, 2048}, {DAA, 128}, {DAS, 128}, {RTNW, 256}, {RTNI, 1}, {HALT, 1},  {STOP, 1},
             {JMP, 4096},  {SHR, 1},   {TJMP, 1},  {NOP, 1},    {UNLISTED, UNLISTED_WORDS}};

static unsigned any_form(void)
{
    enum { BANKED = 16, OTHERS = 16, LAST = sizeof forms / sizeof forms[0] };
    unsigned form = any(BANKED + OTHERS + LAST);

    if (form < BANKED)
        return form << 10 | any(1 << 10);
    if (form < BANKED + OTHERS)
        return (form - BANKED + 8) << 11 | any(1 << 11);
    form -= BANKED + OTHERS;
    return forms[form].first + any(forms[form].words);
}

void all_forms(uint8_t *program)
{
    seed = FORMS_SEED;
    for (unsigned address = 0; address < GALHOVEIA_WORDS; address++)
        put(program, address, any_form());
}

/* ---- Scripts ---- */

void only_cycles(uint8_t *script, size_t events)
{
    memset(script, GALHOVEIA_EVENT_CYCLE, events);
}

void cycles_and_sound(uint8_t *script, size_t events)
{
    enum { CLOCKS_TO_A_CYCLE = 4 };

    memset(script, GALHOVEIA_EVENT_SOUND, events);
    for (size_t at = 0; at < events; at += 1 + CLOCKS_TO_A_CYCLE)
        script[at] = GALHOVEIA_EVENT_CYCLE;
}

void some_pins(uint8_t *script, size_t events, size_t every)
{
    only_cycles(script, events);
    for (size_t at = 0; at < events; at += every)
        script[at] = (uint8_t)(GALHOVEIA_EVENT_PINS_A + any(PINS));
}

/* ---- Scripts of two cars ---- */

static unsigned next_car(enum dealing dealing, size_t entry)
{
    switch (dealing) {
    case BY_TURNS:
        return entry % CARS;
    case IN_ROWS:
        return entry / ROW % CARS;
    default:
        return any(CARS);
    }
}

void deal(uint8_t *entries, size_t length, const uint8_t *script, enum dealing dealing, size_t own[CARS])
{
    seed = CARS_SEED;
    memset(own, 0, CARS * sizeof own[0]);
    for (size_t entry = 0; entry < length; entry++) {
        unsigned car = next_car(dealing, entry);

        entries[ENTRY_BYTES * entry] = (uint8_t)car;
        entries[ENTRY_BYTES * entry + 1] = script[own[car]++];
    }
}

/* ---- Replacements ---- */

void forth_and_back(struct replacement *replacements, size_t forth, const uint8_t *program)
{
    uint8_t replaced[GALHOVEIA_PROGRAM_BYTES];

    seed = WORDS_SEED;
    memcpy(replaced, program, sizeof replaced);
    for (size_t at = 0; at < forth; at++) {
        unsigned address = any(GALHOVEIA_WORDS), word = any_form();

        replacements[at] = (struct replacement){(uint16_t)address, (uint16_t)word};
        replacements[2 * forth - 1 - at] = (struct replacement){(uint16_t)address, word_at(replaced, address)};
        put(replaced, address, word);
    }
}

/* ---- A panel ---- */

void full_panel(uint8_t *memory, uint8_t *wiring)
{
    seed = PANEL_SEED;
    for (unsigned cell = DISPLAY; cell < DISPLAY + DISPLAY_CELLS; cell++)
        memory[cell] = (uint8_t)any(16);
    for (unsigned element = 0; element < GALHOVEIA_ELEMENTS_MOST; element++) {
        put(wiring + GALHOVEIA_ELEMENT_BYTES * element, 0, DISPLAY + any(DISPLAY_CELLS));
        wiring[GALHOVEIA_ELEMENT_BYTES * element + 2] = (uint8_t)any(4);
    }
}
