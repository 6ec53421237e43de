/* Quiet programs and machines. The main part goes on from word to word and calls routines, so that wherever it stands
   no word from there on has been executed. */
#include "compare_stretches.h"

/* ---- Quiet programs ---- */

/* Between the main part and the last words of a page: routines that call leaves, a table with its lookup, and the
   leaves. The vectors and the handler are those of the lower page. */
enum {
    VECTORS = 4, HANDLER = 0x005, HANDLER_END = 0x00F, ROUTINES = MAIN_END, TABLE = 0x500, LOOKUP = 0x580,
    LEAVES = 0x590, LEAVES_END = 0x5F0, ROUTINE_WORDS = 16, LEAF_WORDS = 8
};

unsigned immediate(unsigned code, unsigned nibble, unsigned cell)
{
    return code << 11 | nibble << 7 | cell;
}

unsigned any_data(void)
{
    return 0x20 + any(0x60);
}

static unsigned any_askable(void)
{
    unsigned cell;

    do
        cell = any(0x36E);
    while (!is_askable(cell));
    return cell;
}

/* The pointer is kept at data and display cells. */
static unsigned pointer_word(void)
{
    static const uint8_t high[] = {0, 1, 2, 6};

    switch (any(5)) {
    case 0:
        return immediate(LDI, any(16), DPL);
    case 1:
        return immediate(LDI, 2 + any(2), DPM);
    case 2:
        return immediate(LDI, high[any(sizeof high)], DPH);
    case 3:
        return any(16) << 10 | INX;
    default:
        return immediate(8 + any(8), any(16), INX);
    }
}

static unsigned interrupt_word(void)
{
    switch (any(4)) {
    case 0:
        return immediate(ORIM, any(16) & drawn.enabled, 0x00);
    case 1:
        return immediate(LDI, any(16) & ~drawn.enabled & 15, 0x01);
    case 2:
        return immediate(ORIM, any(16) & ~drawn.enabled & 15, 0x01);
    default:
        return immediate(ANDIM, any(16), 0x01);
    }
}

static unsigned register_word(void)
{
    static const uint8_t read[] = {0x00, 0x01, 0x02, 0x03, 0x06, 0x07, 0x08, 0x09, 0x0A, 0x0B, 0x0C, 0x0D, 0x0E, 0x10,
                                   0x11, 0x12, 0x13, 0x14, 0x15, 0x16, 0x17, 0x18, 0x19, 0x1A, 0x1B, 0x1C, 0x1D, 0x1F};
    static const uint8_t written[] = {0x06, 0x07, 0x08, 0x09, 0x0A, 0x0B, 0x0C, 0x0D, 0x0E, 0x13,
                                      0x14, 0x15, 0x16, 0x17, 0x18, 0x19, 0x1B, 0x1C, 0x1D, 0x1F};

    switch (any(5)) {
    case 0:
        return any(8) << 11 | read[any(sizeof read)];
    case 1:
        return immediate(8 + 2 * any(2), any(16), read[any(sizeof read)]);
    case 2:
        return any(16) << 10 | written[any(sizeof written)];
    case 3:
        return immediate(8 + any(8), any(16), written[any(sizeof written)]);
    default:
        return interrupt_word();
    }
}

unsigned plain_word(void)
{
    unsigned chance = any(100);

    if (chance < 35)
        return any(16) << 10 | any_askable();
    if (chance < 60)
        return immediate(8 + any(8), any(16), any_data());
    if (chance < 70)
        return pointer_word();
    if (chance < 90)
        return register_word();
    if (chance < 95)
        return (any(2) ? DAA : DAS) | any_data();
    return any(2) ? SHR : NOP_WORD;
}

/* A few words on in the page, or the next. */
static unsigned quiet_word(unsigned address)
{
    unsigned chance = any(100), target = address + 1 + any(3);

    if (chance < 12)
        return (16 + any(8)) << 11 | (target & (PAGE - 1));
    return chance < 14 ? JMP | target : plain_word();
}

static unsigned calling_word(unsigned address)
{
    if (address < MAIN_LAST && any(6) == 0)
        return CALL | (any(6) ? ROUTINES + ROUTINE_WORDS * any((TABLE - ROUTINES) / ROUTINE_WORDS) : LOOKUP);
    if (any(10) == 0)
        return CALL | (LEAVES + LEAF_WORDS * any((LEAVES_END - LEAVES) / LEAF_WORDS));
    return quiet_word(drawn.page + address);
}

static unsigned any_return(void)
{
    return any(2) ? RTNI_WORD : RTNW | any(256);
}

void put(unsigned address, unsigned word)
{
    set_two(drawn.program + 2 * address, word);
}

static void put_routines(void)
{
    for (unsigned address = ROUTINES; address < TABLE; address++)
        put(drawn.page + address, address % ROUTINE_WORDS == ROUTINE_WORDS - 1 ? any_return() : calling_word(address));
    for (unsigned address = LEAVES; address < LEAVES_END; address++)
        put(drawn.page + address,
            address % LEAF_WORDS == LEAF_WORDS - 1 ? any_return() : quiet_word(drawn.page + address));
    /* A branch out of the last leaf leads here. */
    put(drawn.page + LEAVES_END, RTNI_WORD);
    put(drawn.page + LEAVES_END + 1, RTNI_WORD);
}

/* TBR, which the lookup keeps below 8, and AC choose a word of the table. */
static void put_table(void)
{
    for (unsigned address = TABLE; address < LOOKUP; address++)
        put(drawn.page + address, RTNW | any(256));
    put(drawn.page + LOOKUP, immediate(ANDIM, 7, TBR));
    put(drawn.page + LOOKUP + 1, LDA << 10 | any_data());
    put(drawn.page + LOOKUP + 2, TJMP_WORD);
}

static void draw_program(void)
{
    for (unsigned address = 0; address < WORDS; address++)
        put(address, plain_word());
    put(0, JMP | drawn.page | MAIN);
    for (unsigned vector = 1; vector <= VECTORS; vector++)
        put(vector, any(2) ? RTNI_WORD : JMP | HANDLER);
    put(HANDLER_END, RTNI_WORD);
    for (unsigned address = MAIN; address < MAIN_END; address++)
        put(drawn.page + address, calling_word(address));
    put_routines();
    put_table();
}

/* ---- Quiet machines ---- */

static void draw_machine(void)
{
    uint8_t *memory = drawn.start.memory, *record = drawn.start.record;

    random_machine(&drawn.start);
    memory[0x000] = (uint8_t)drawn.enabled;
    memory[0x001] = (uint8_t)(any(16) & ~drawn.enabled & 15);
    memory[DPM] = (uint8_t)(2 + any(2));
    memory[DPH] = any(2) ? 0 : 6;
    record[R_MODE] = RUNNING;
    if (any(4)) {
        record[R_PENDING] = 0;
        set_two(record + R_PENDING_ADDRESS, 0);
    }
    set_two(record + R_PC, drawn.page | MAIN);
}

void draw_quiet(unsigned enabled)
{
    drawn.enabled = enabled;
    drawn.page = PAGE * any(2);
    drawn.length = 0;
    draw_program();
    draw_machine();
}
