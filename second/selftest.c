/* Worked cases for the second emulator. Every expected value was taken by hand from the documents; the words given to
   from() name the place: "01", "02" and "003" are the documents, "reading" a reading of 01 by its number in
   docs/DECISIONS.md. */
#include "instruction.h"
#include "search.h"
#include "second.h"

#include <stdio.h>
#include <stdlib.h>
#include <string.h>

/* ---- Counting ---- */

static unsigned long passed, failed;
static const char *place = "";

static void from(const char *document_and_part)
{
    place = document_and_part;
}

static void is(const char *what, long long got, long long wanted)
{
    if (got == wanted) {
        passed++;
        return;
    }
    failed++;
    printf("FAILED %s: %s is %lld ($%llX), not %lld ($%llX)\n", place, what, got, (unsigned long long)got, wanted,
           (unsigned long long)wanted);
}

/* ---- A desk with one machine on it ---- */

static uint8_t program[8192], memory[1024], record[45];
static uint64_t told; /* the value of the last call */

/* Where each field of the record begins (01, What is lent: fields in that order; 02, P1 and P2: 45 bytes). */
enum {
    R_PC = 0, R_AC = 2, R_CY = 3, R_MODE = 4, R_STACK = 5, R_T0_PRESCALER = 21, R_T0_COUNTER = 23, R_T0_LOAD = 24,
    R_BASE_PRESCALER = 25, R_BASE_COUNTER = 26, R_WATCHDOG = 27, R_PIN_A = 29, R_PIN_B = 30, R_PIN_C = 31,
    R_PIN_D = 32, R_OPTIONS = 33, R_PENDING = 34, R_PENDING_ADDRESS = 35, R_COUNT_1 = 37, R_OUTPUT_1 = 39,
    R_COUNT_2 = 40, R_OUTPUT_2 = 42, R_FROZEN = 43, R_FROZEN_MARK = 44
};
enum { RUNNING = 0, IN_HALT = 1, IN_STOP = 2 };
enum { CYCLE = 0x00, BASE_PULSE = 0x01, WATCHDOG_PULSE = 0x02, RESET_PIN = 0x03, SOUND_CLOCK = 0x05 };
enum { PIN_A = 0x10, PIN_B = 0x20, PIN_C = 0x30, PIN_D = 0x40 };
enum { NO_STOP = 4096 };

static unsigned two(int at)
{
    return (unsigned)record[at] << 8 | record[at + 1];
}

static void set_two(int at, unsigned field)
{
    record[at] = (uint8_t)(field >> 8);
    record[at + 1] = (uint8_t)field;
}

static unsigned stack_entry(int level)
{
    return two(R_STACK + 2 * level);
}

static void put(unsigned address, unsigned word)
{
    program[2 * address] = (uint8_t)(word >> 8);
    program[2 * address + 1] = (uint8_t)word;
}

static unsigned made(enum mnemonic mnemonic, unsigned first, unsigned second)
{
    struct instruction instruction = {mnemonic, {first, second}};
    uint16_t word = 0;
    uint64_t value;

    if (instruction_write(&instruction, &word, &value) != 0) {
        printf("a case names a field out of range\n");
        exit(EXIT_FAILURE);
    }
    return word;
}

static void fresh_with(unsigned options)
{
    memset(program, 0xFF, sizeof program);
    memset(memory, 0xEE, sizeof memory);
    memset(record, 0xEE, sizeof record);
    if (second_fresh(memory, sizeof memory, record, sizeof record, options, &told) != 0) {
        printf("no fresh machine\n");
        exit(EXIT_FAILURE);
    }
}

static void fresh(void)
{
    fresh_with(0);
}

static uint32_t step(uint8_t event)
{
    return second_step(program, sizeof program, memory, sizeof memory, record, sizeof record, event, &told);
}

/* Steps that the case takes for granted; a refusal is a failure of the case. */
static void events(uint8_t event, int times)
{
    for (int done = 0; done < times; done++) {
        uint32_t refusal = step(event);

        if (refusal != 0)
            is("refusal of an event", refusal, 0);
    }
}

static uint32_t reason;
static uint64_t done_events;

static uint32_t run(const uint8_t *script, size_t length, uint32_t stop)
{
    reason = 99;
    done_events = 99;
    return second_run(program, sizeof program, memory, sizeof memory, record, sizeof record, script, length, stop,
                      &reason, &done_events, &told);
}

/* ---- The twelve numbers ---- */

static void twelve_numbers(void)
{
    struct instruction instruction;
    static const uint8_t level_body[5] = {0x00, 0x20, 0x00, 0x21, 2};
    uint8_t addresses[16];
    uint64_t count = 0;
    uint16_t word = 0;
    int32_t level = 99;

    from("01, Numbers 1");
    fresh();
    put(0, made(ADC, 0x020, 0));
    memory[0x020] = 9;
    record[R_AC] = 8;
    record[R_CY] = 1;
    events(CYCLE, 1);
    is("AC", record[R_AC], 2);
    is("CY", record[R_CY], 1);
    is("the cell", memory[0x020], 9);

    from("01, Numbers 2");
    fresh();
    put(0, made(SUB, 0x020, 0));
    memory[0x020] = 3;
    record[R_AC] = 5;
    events(CYCLE, 1);
    is("AC", record[R_AC], 14);
    is("CY", record[R_CY], 0);

    from("01, Numbers 3");
    fresh();
    put(0, made(SUB, 0x020, 0));
    memory[0x020] = 5;
    record[R_AC] = 5;
    events(CYCLE, 1);
    is("AC", record[R_AC], 0);
    is("CY", record[R_CY], 1);

    from("01, Numbers 4");
    fresh();
    put(0, made(SBIM, 0x20, 0));
    memory[0x020] = 7;
    events(CYCLE, 1);
    is("the cell", memory[0x020], 7);
    is("CY", record[R_CY], 1);

    from("01, Numbers 5; 02, P6: it states the cell's value");
    fresh();
    put(0, made(DAA, 0x20, 0));
    memory[0x020] = 12;
    record[R_AC] = 7;
    events(CYCLE, 1);
    is("AC", record[R_AC], 2);
    is("CY", record[R_CY], 1);
    is("the cell", memory[0x020], 2);

    from("01, Numbers 6; 02, P6: it states the cell's value");
    fresh();
    put(0, made(DAS, 0x20, 0));
    memory[0x020] = 14;
    record[R_AC] = 7;
    events(CYCLE, 1);
    is("AC", record[R_AC], 8);
    is("CY", record[R_CY], 0);
    is("the cell", memory[0x020], 8);

    from("01, Numbers 7");
    fresh();
    set_two(R_PC, 0x7FF);
    events(CYCLE, 1);
    is("PC after $7FF", two(R_PC), 0x000);
    set_two(R_PC, 0xFFF);
    events(CYCLE, 1);
    is("PC after $FFF", two(R_PC), 0x800);

    from("01, Numbers 8");
    fresh();
    put(0xA34, 0xF7FF);
    set_two(R_PC, 0xA34);
    memory[0x00E] = 5;
    record[R_AC] = 6;
    events(CYCLE, 1);
    is("PC", two(R_PC), 0xA56);

    from("01, Numbers 9");
    is("reading $CB7F", instruction_read(0xCB7F, &instruction, &told), 0);
    is("its mnemonic", instruction.mnemonic, DAA);
    is("its X", instruction.field[0], 0x7F);
    is("reading $CB80", instruction_read(0xCB80, &instruction, &told), 6);
    is("the word told", told, 0xCB80);
    fresh();
    put(0, 0xCB7F);
    memory[0x07F] = 14;
    events(CYCLE, 1);
    is("$07F after $CB7F", memory[0x07F], 4);
    put(1, 0xCB80);
    is("executing $CB80", step(CYCLE), 6);
    is("the address told", told, 1);

    from("01, Numbers 10");
    instruction = (struct instruction){RTNW, {4, 2}};
    is("writing RTNW 4,2", instruction_write(&instruction, &word, &told), 0);
    is("the word", word, 0xD042);
    fresh();
    put(0, 0xD042);
    events(CYCLE, 1);
    is("TBR", memory[0x00E], 4);
    is("AC", record[R_AC], 2);

    from("01, Numbers 11");
    fresh();
    memory[0x020] = 1;
    memory[0x021] = 0;
    is("level call", second_level(memory, 1024, level_body, 5, &level, &told), 0);
    is("level of digits 1,0", level, 6);
    memory[0x020] = 0;
    memory[0x021] = 1;
    is("level call", second_level(memory, 1024, level_body, 5, &level, &told), 0);
    is("level of digits 0,1", level, -1);

    from("01, Numbers 12");
    fresh();
    put(0x010, 0x4820);
    put(0x011, 0x48A0);
    put(0x012, 0x3C0F);
    put(0x013, 0x3CA0);
    put(0x014, 0x77A0);
    memset(addresses, 0xEE, sizeof addresses);
    is("list", second_list(program, 8192, 0x020, addresses, sizeof addresses, &count, &told), 0);
    is("bytes", (long long)count, 4);
    is("first, high byte", addresses[0], 0x00);
    is("first, low byte", addresses[1], 0x11);
    is("second, high byte", addresses[2], 0x00);
    is("second, low byte", addresses[3], 0x12);
    is("the byte beyond", addresses[4], 0xEE);
}

/* ---- Words ---- */

static void words(void)
{
    unsigned listed = 0;
    unsigned again_wrong = 0;
    unsigned execute_wrong = 0;
    struct second_machine plain;

    from("01, Instruction words");
    fresh();
    second_unpack(&plain, memory, record);
    for (uint32_t word = 0; word <= 0xFFFF; word++) {
        struct instruction instruction;
        struct second_machine machine = plain;
        uint16_t again = 0;
        uint64_t value;
        bool is_listed = instruction_read((uint16_t)word, &instruction, &value) == 0;

        if (second_execute(&machine, (uint16_t)word) != is_listed)
            execute_wrong++;
        if (!is_listed)
            continue;
        listed++;
        if (instruction_write(&instruction, &again, &value) != 0 || again != word)
            again_wrong++;
    }
    is("listed words", listed, 55814);
    is("words not written again as read", again_wrong, 0);
    is("words that execute though unlisted, or the reverse", execute_wrong, 0);

    static const struct {
        uint16_t word;
        enum mnemonic mnemonic;
        unsigned first, second;
    } read[] = {
        {0x0000, ADC, 0x000, 0},  {0x0400, ADCM, 0x000, 0}, {0x0BFF, ADD, 0x3FF, 0},   {0x0C80, ADDM, 0x080, 0},
        {0x1020, SBC, 0x020, 0},  {0x1420, SBCM, 0x020, 0}, {0x1820, SUB, 0x020, 0},   {0x1C20, SUBM, 0x020, 0},
        {0x2000, EOR, 0x000, 0},  {0x2400, EORM, 0x000, 0}, {0x2800, OR, 0x000, 0},    {0x2C00, ORM, 0x000, 0},
        {0x3000, AND, 0x000, 0},  {0x3400, ANDM, 0x000, 0}, {0x3B00, LDA, 0x300, 0},   {0x3F77, STA, 0x377, 0},
        {0x4081, ADI, 0x01, 1},   {0x4FFF, ADIM, 0x7F, 15}, {0x5000, SBI, 0x00, 0},    {0x5C20, SBIM, 0x20, 8},
        {0x6480, EORIM, 0x00, 9}, {0x6880, ORIM, 0x00, 1},  {0x77A0, ANDIM, 0x20, 15}, {0x7F80, LDI, 0x00, 15},
        {0x8001, BNZ, 0x001, 0},  {0x8FFF, BNC, 0x7FF, 0},  {0x9000, BAZ, 0x000, 0},   {0x9800, BC, 0x000, 0},
        {0xA000, BA0, 0x000, 0},  {0xA800, BA1, 0x000, 0},  {0xB000, BA2, 0x000, 0},   {0xB800, BA3, 0x000, 0},
        {0xC000, CALL, 0x000, 0}, {0xC7FF, CALL, 0x7FF, 0}, {0xCB00, DAA, 0x00, 0},    {0xCD00, DAS, 0x00, 0},
        {0xCD7F, DAS, 0x7F, 0},   {0xD000, RTNW, 0, 0},     {0xD0FF, RTNW, 15, 15},    {0xD400, RTNI, 0, 0},
        {0xD800, HALT, 0, 0},     {0xDC00, STOP, 0, 0},     {0xE000, JMP, 0x000, 0},   {0xEFFF, JMP, 0xFFF, 0},
        {0xF000, SHR, 0, 0},      {0xF7FF, TJMP, 0, 0},     {0xFFFF, NOP, 0, 0},
    };
    from("003, section 17");
    for (size_t at = 0; at < sizeof read / sizeof read[0]; at++) {
        struct instruction instruction = {MNEMONICS, {99, 99}};

        is("reading a listed word", instruction_read(read[at].word, &instruction, &told), 0);
        is("mnemonic", instruction.mnemonic, read[at].mnemonic);
        is("first field", instruction.field[0], read[at].first);
        is("second field", instruction.field[1], read[at].second);
    }

    static const uint16_t unlisted[] = {0xC800, 0xCAFF, 0xCB80, 0xCCFF, 0xCD80, 0xCFFF, 0xD100, 0xD3FF, 0xD401, 0xD7FF,
                                        0xD801, 0xDBFF, 0xDC01, 0xDFFF, 0xF001, 0xF7FE, 0xF800, 0xFFFE};
    from("01, What comes back, 6 of reading");
    for (size_t at = 0; at < sizeof unlisted / sizeof unlisted[0]; at++) {
        struct instruction instruction;

        is("reading an unlisted word", instruction_read(unlisted[at], &instruction, &told), 6);
        is("the word told", told, unlisted[at]);
    }

    static const struct {
        enum mnemonic mnemonic;
        unsigned first, second;
        uint32_t answer;
    } fields[] = {
        {ADC, 1023, 0, 0},  {ADC, 1024, 0, 13},  {STA, 1024, 0, 13},  {ADIM, 127, 15, 0}, {ADIM, 128, 0, 13},
        {LDI, 0, 16, 13},   {BNZ, 2047, 0, 0},   {BNZ, 2048, 0, 13},  {CALL, 2047, 0, 0}, {CALL, 2048, 0, 13},
        {JMP, 4095, 0, 0},  {JMP, 4096, 0, 13},  {DAA, 127, 0, 0},    {DAA, 128, 0, 13},  {DAS, 128, 0, 13},
        {RTNW, 15, 15, 0},  {RTNW, 16, 0, 13},   {RTNW, 0, 16, 13},
    };
    from("01, What comes back, 13");
    for (size_t at = 0; at < sizeof fields / sizeof fields[0]; at++) {
        struct instruction instruction = {fields[at].mnemonic, {fields[at].first, fields[at].second}};
        uint16_t word = 0xABCD;

        told = 99;
        is("writing", instruction_write(&instruction, &word, &told), fields[at].answer);
        is("value", (long long)told, 0);
        if (fields[at].answer != 0)
            is("the word is left", word, 0xABCD);
    }
}

/* ---- One instruction ---- */

static void arithmetic(void)
{
    static const struct {
        const char *what;
        enum mnemonic mnemonic;
        unsigned immediate;
        uint8_t cell, ac, cy;
        uint8_t then_ac, then_cy, then_cell;
    } cases[] = {
        {"ADC 7+8+0", ADC, 0, 7, 8, 0, 15, 0, 7},
        {"ADC 9+8+1", ADC, 0, 9, 8, 1, 2, 1, 9},
        {"ADCM 15+0+1", ADCM, 0, 15, 0, 1, 0, 1, 0},
        {"ADD 9+8, CY not added", ADD, 0, 9, 8, 1, 1, 1, 9},
        {"ADD 3+4 clears CY", ADD, 0, 3, 4, 1, 7, 0, 3},
        {"ADDM 10+10", ADDM, 0, 10, 10, 0, 4, 1, 4},
        {"SBC 5+12+1", SBC, 0, 5, 3, 1, 2, 1, 5},
        {"SBC 5+12+0", SBC, 0, 5, 3, 0, 1, 1, 5},
        {"SBC 3+12+0", SBC, 0, 3, 3, 0, 15, 0, 3},
        {"SBCM 0+0+0", SBCM, 0, 0, 15, 0, 0, 0, 0},
        {"SBCM 15+0+1", SBCM, 0, 15, 15, 1, 0, 1, 0},
        {"SUB 3-5", SUB, 0, 3, 5, 1, 14, 0, 3},
        {"SUBM 9-4", SUBM, 0, 9, 4, 0, 5, 1, 5},
        {"SUBM 0-1", SUBM, 0, 0, 1, 1, 15, 0, 15},
        {"EOR 12,10 keeps CY 1", EOR, 0, 12, 10, 1, 6, 1, 12},
        {"EORM 15,1 keeps CY 0", EORM, 0, 15, 1, 0, 14, 0, 14},
        {"OR 8,5", OR, 0, 8, 5, 1, 13, 1, 8},
        {"ORM 2,4", ORM, 0, 2, 4, 0, 6, 0, 6},
        {"AND 14,7", AND, 0, 14, 7, 1, 6, 1, 14},
        {"ANDM 9,12", ANDM, 0, 9, 12, 0, 8, 0, 8},
        {"LDA 11", LDA, 0, 11, 2, 1, 11, 1, 11},
        {"STA 6", STA, 0, 11, 6, 0, 6, 0, 6},
        {"ADI 14+5", ADI, 5, 14, 1, 0, 3, 1, 14},
        {"ADIM 8+7", ADIM, 7, 8, 9, 1, 15, 0, 15},
        {"SBI 4-6", SBI, 6, 4, 9, 1, 14, 0, 4},
        {"SBIM 10-3", SBIM, 3, 10, 0, 0, 7, 1, 7},
        {"EORIM 5,15", EORIM, 15, 5, 0, 1, 10, 1, 10},
        {"ORIM 1,8", ORIM, 8, 1, 0, 0, 9, 0, 9},
        {"ANDIM 13,6", ANDIM, 6, 13, 0, 1, 4, 1, 4},
        {"LDI 9 sets AC too", LDI, 9, 3, 1, 1, 9, 1, 9},
        {"DAA 5, no change", DAA, 0, 5, 13, 0, 5, 0, 5},
        {"DAA 9, no change", DAA, 0, 9, 10, 0, 9, 0, 9},
        {"DAA 10", DAA, 0, 10, 1, 0, 0, 1, 0},
        {"DAA 2 with CY", DAA, 0, 2, 1, 1, 8, 1, 8},
        {"DAA 15 with CY", DAA, 0, 15, 1, 1, 5, 1, 5},
        {"DAS 3 with CY, no change", DAS, 0, 3, 15, 1, 3, 1, 3},
        {"DAS 12 with CY, no change", DAS, 0, 12, 1, 1, 12, 1, 12},
        {"DAS 0 without CY", DAS, 0, 0, 1, 0, 10, 0, 10},
        {"DAS 6 without CY", DAS, 0, 6, 15, 0, 0, 0, 0},
        {"SHR 11", SHR, 0, 1, 11, 0, 5, 1, 1},
        {"SHR 8", SHR, 0, 1, 8, 1, 4, 0, 1},
        {"NOP", NOP, 0, 1, 13, 1, 13, 1, 1},
    };

    from("01, One instruction; 003, section 17; 02, P6");
    for (size_t at = 0; at < sizeof cases / sizeof cases[0]; at++) {
        bool bare = instruction_shape(cases[at].mnemonic) == SHAPE_BARE;

        fresh();
        put(0, made(cases[at].mnemonic, bare ? 0 : 0x20, cases[at].immediate));
        memory[0x020] = cases[at].cell;
        record[R_AC] = cases[at].ac;
        record[R_CY] = cases[at].cy;
        events(CYCLE, 1);
        is(cases[at].what, record[R_AC], cases[at].then_ac);
        is(cases[at].what, record[R_CY], cases[at].then_cy);
        is(cases[at].what, memory[0x020], cases[at].then_cell);
        is("PC", two(R_PC), 1);
    }
}

static void branches(void)
{
    static const struct {
        enum mnemonic mnemonic;
        uint8_t ac, cy;
        bool taken;
    } cases[] = {
        {BNZ, 1, 0, true},  {BNZ, 0, 1, false},  {BAZ, 0, 0, true},  {BAZ, 8, 0, false}, {BC, 0, 1, true},
        {BC, 15, 0, false}, {BNC, 0, 0, true},   {BNC, 0, 1, false}, {BA0, 1, 0, true},  {BA0, 14, 0, false},
        {BA1, 2, 0, true},  {BA1, 13, 0, false}, {BA2, 4, 0, true},  {BA2, 11, 0, false}, {BA3, 8, 0, true},
        {BA3, 7, 0, false},
    };

    from("003, section 17, Control; 01, One instruction");
    for (size_t at = 0; at < sizeof cases / sizeof cases[0]; at++) {
        fresh();
        put(0x123, made(cases[at].mnemonic, 0x456, 0));
        put(0xFFF, made(cases[at].mnemonic, 0x456, 0));
        set_two(R_PC, 0x123);
        record[R_AC] = cases[at].ac;
        record[R_CY] = cases[at].cy;
        events(CYCLE, 1);
        is("branch in page 0", two(R_PC), cases[at].taken ? 0x456 : 0x124);
        set_two(R_PC, 0xFFF);
        events(CYCLE, 1);
        is("branch keeps PC11", two(R_PC), cases[at].taken ? 0xC56 : 0x800);
        is("AC is left", record[R_AC], cases[at].ac);
        is("CY is left", record[R_CY], cases[at].cy);
    }

    from("01, One instruction, JMP sets all 12 bits");
    fresh();
    put(0x900, made(JMP, 0x123, 0));
    put(0x123, made(JMP, 0xABC, 0));
    set_two(R_PC, 0x900);
    events(CYCLE, 1);
    is("to page 0", two(R_PC), 0x123);
    events(CYCLE, 1);
    is("to page 1", two(R_PC), 0xABC);

    from("01, One instruction, TJMP: its own PC11-PC8, pushes nothing");
    fresh();
    put(0x4FF, 0xF7FF);
    set_two(R_PC, 0x4FF);
    memory[0x00E] = 0xA;
    record[R_AC] = 3;
    events(CYCLE, 1);
    is("PC at a page's end", two(R_PC), 0x4A3);
    is("stack", stack_entry(0), 0);
    is("TBR is left", memory[0x00E], 0xA);
}

static void stack(void)
{
    from("01, One instruction, CALL pushes CY and PC+1, keeps PC11");
    fresh();
    put(0xFFF, made(CALL, 0x010, 0));
    set_two(R_PC, 0xFFF);
    record[R_CY] = 1;
    set_two(R_STACK, 0x0ABC);
    events(CYCLE, 1);
    is("PC", two(R_PC), 0x810);
    is("newest: 4096 + $800", stack_entry(0), 0x1800);
    is("the one before", stack_entry(1), 0x0ABC);
    is("CY is left", record[R_CY], 1);

    from("003, 1.2; 01, One instruction: RTNW leaves CY and sets TBR and AC");
    put(0x810, made(RTNW, 9, 5));
    record[R_CY] = 0;
    events(CYCLE, 1);
    is("PC", two(R_PC), 0x800);
    is("CY", record[R_CY], 0);
    is("TBR", memory[0x00E], 9);
    is("AC", record[R_AC], 5);
    is("newest", stack_entry(0), 0x0ABC);

    from("01, One instruction: RTNI restores CY");
    put(0x800, made(RTNI, 0, 0));
    set_two(R_STACK, 0x1ABC);
    events(CYCLE, 1);
    is("PC", two(R_PC), 0xABC);
    is("CY", record[R_CY], 1);
    is("AC is left", record[R_AC], 5);

    from("01, One instruction: 0 enters at the bottom");
    fresh();
    for (int level = 0; level < 8; level++)
        set_two(R_STACK + 2 * level, 0x1111);
    put(0, made(RTNI, 0, 0));
    events(CYCLE, 1);
    is("the seventh", stack_entry(6), 0x1111);
    is("the bottom", stack_entry(7), 0);

    /* Calls from $000, $010, ... $080 push $001, $011, ... $081; the ninth drops $001. */
    from("003, 1.6 note; 01, One instruction: a push on a full stack drops the oldest");
    fresh();
    for (unsigned depth = 0; depth < 9; depth++) {
        put(0x10 * depth, made(CALL, 0x10 * (depth + 1), 0));
        put(0x10 * depth + 1, made(RTNI, 0, 0));
    }
    put(0x090, made(RTNI, 0, 0));
    events(CYCLE, 9);
    is("PC nine deep", two(R_PC), 0x090);
    is("newest", stack_entry(0), 0x081);
    is("oldest", stack_entry(7), 0x011);
    events(CYCLE, 8);
    is("PC after eight returns", two(R_PC), 0x011);
    is("the stack is empty", stack_entry(0), 0);
    events(CYCLE, 1);
    is("PC after the ninth return", two(R_PC), 0x000);

    from("01, One instruction: interrupts push too");
    fresh();
    for (int level = 0; level < 8; level++)
        set_two(R_STACK + 2 * level, 0x0100u + (unsigned)level);
    memory[0x000] = 2;
    memory[0x001] = 2;
    set_two(R_PC, 0x345);
    record[R_CY] = 1;
    events(CYCLE, 1);
    is("newest: 4096 + $345", stack_entry(0), 0x1345);
    is("oldest left", stack_entry(7), 0x0106);
}

static void point_at(unsigned address)
{
    memory[0x010] = address & 15;
    memory[0x011] = address >> 4 & 7;
    memory[0x012] = address >> 7 & 7;
}

static void pointer(void)
{
    from("01, One instruction, $00F; 003, 1.5");
    fresh();
    memory[0x012] = 6;
    memory[0x011] = 3;
    memory[0x010] = 5;
    memory[0x335] = 9; /* 128 x 6 + 16 x 3 + 5 */
    put(0, made(LDA, 0x00F, 0));
    put(1, made(ADIM, 0x0F, 2));
    put(2, made(DAA, 0x0F, 0));
    put(3, made(LDI, 0x0F, 4));
    put(4, made(ADC, 0x00F, 0));
    events(CYCLE, 1);
    is("LDA", record[R_AC], 9);
    events(CYCLE, 1);
    is("ADIM", memory[0x335], 11);
    record[R_AC] = 6;
    events(CYCLE, 1);
    is("DAA of 11", memory[0x335], 1);
    events(CYCLE, 1);
    is("LDI", memory[0x335], 4);
    events(CYCLE, 1);
    is("ADC 4+4+1", record[R_AC], 9);
    is("$00F holds nothing", memory[0x00F], 0);

    from("reading 9: only the whole address $00F");
    fresh();
    point_at(0x020);
    put(0, made(STA, 0x08F, 0));
    record[R_AC] = 7;
    events(CYCLE, 1);
    is("$08F", memory[0x08F], 7);
    is("$020", memory[0x020], 0);

    from("01, One instruction: the pointer at $00F reads 0 and ignores writes");
    fresh();
    point_at(0x00F);
    put(0, made(LDA, 0x00F, 0));
    put(1, made(ADIM, 0x0F, 3));
    put(2, made(STA, 0x00F, 0));
    record[R_AC] = 7;
    events(CYCLE, 1);
    is("LDA", record[R_AC], 0);
    events(CYCLE, 1);
    is("ADIM gives AC the result", record[R_AC], 3);
    events(CYCLE, 1);
    is("$00F", memory[0x00F], 0);

    from("01, One instruction: the address is taken before any write");
    fresh();
    point_at(0x010);
    put(0, made(ADIM, 0x0F, 5));
    events(CYCLE, 1);
    is("DPL", memory[0x010], 5);
    is("$015", memory[0x015], 0);

    from("reading 9: side effects of the cell pointed at");
    fresh_with(1);
    point_at(0x01E);
    set_two(R_WATCHDOG, 17);
    put(0, made(LDA, 0x00F, 0));
    events(CYCLE, 1);
    is("watchdog after a read of $01E", two(R_WATCHDOG), 4096);
    point_at(0x01A);
    memory[0x01B] = 2;
    memory[0x01C] = 1;
    put(1, made(LDI, 0x0F, 3));
    events(CYCLE, 1);
    is("pending after a write of $01A", record[R_PENDING], 1);
    is("its address", two(R_PENDING_ADDRESS), 0x123);
    point_at(0x008);
    record[R_PIN_A] = 6;
    put(2, made(LDA, 0x00F, 0));
    events(CYCLE, 1);
    is("port A's pins", record[R_AC], 6);
    point_at(0x005);
    put(3, made(LDI, 0x0F, 8));
    events(CYCLE, 1);
    is("Timer0's counter", record[R_T0_COUNTER], 0x80);
}

/* ---- Cells ---- */

static void cells(void)
{
    static const struct {
        unsigned address;
        uint8_t kept;
    } written[] = {
        {0x000, 15}, {0x001, 15}, {0x002, 15}, {0x003, 15}, {0x004, 0},  {0x005, 0},  {0x006, 0},  {0x007, 7},
        {0x008, 15}, {0x009, 15}, {0x00A, 15}, {0x00B, 15}, {0x00C, 12}, {0x00D, 15}, {0x00E, 15}, {0x010, 15},
        {0x011, 7},  {0x012, 7},  {0x013, 15}, {0x014, 11}, {0x015, 15}, {0x016, 15}, {0x017, 15}, {0x018, 15},
        {0x019, 15}, {0x01A, 15}, {0x01B, 15}, {0x01C, 15}, {0x01D, 15}, {0x01E, 7},  {0x01F, 0},  {0x020, 15},
        {0x16F, 15}, {0x170, 0},  {0x1FF, 0},  {0x2FF, 0},  {0x300, 15}, {0x348, 15}, {0x349, 0},  {0x357, 0},
        {0x358, 15}, {0x36D, 15}, {0x36E, 0},  {0x36F, 0},  {0x370, 15}, {0x373, 15}, {0x377, 15}, {0x378, 0},
        {0x3FF, 0},
    };

    from("01, What is lent, Memory; One instruction");
    for (size_t at = 0; at < sizeof written / sizeof written[0]; at++) {
        uint8_t before[1024];
        int others = 0;

        fresh();
        put(0, made(STA, written[at].address, 0));
        record[R_AC] = 15;
        memcpy(before, memory, sizeof before);
        events(CYCLE, 1);
        is("what a cell keeps of 15", memory[written[at].address], written[at].kept);
        for (unsigned address = 0; address < 1024; address++)
            others += address != written[at].address && memory[address] != before[address];
        is("other cells changed", others, 0);
    }

    from("01, One instruction: $370-$377 read 0");
    fresh();
    memory[0x371] = 9;
    put(0, made(LDA, 0x371, 0));
    put(1, made(ADDM, 0x371, 0));
    record[R_AC] = 5;
    events(CYCLE, 1);
    is("LDA", record[R_AC], 0);
    record[R_AC] = 5;
    events(CYCLE, 1);
    is("ADDM 0+5", memory[0x371], 5);

    from("01, What is lent: unmapped reads 0");
    fresh();
    put(0, made(LDA, 0x2AB, 0));
    record[R_AC] = 5;
    events(CYCLE, 1);
    is("LDA", record[R_AC], 0);

    from("reading 10: AC gets the full result");
    fresh();
    put(0, made(LDI, 0x07, 13));
    events(CYCLE, 1);
    is("AC", record[R_AC], 13);
    is("$007", memory[0x007], 5);

    from("01, One instruction: $00C bits 0-1 and $01E bit 3 ignore writes");
    fresh_with(2 | 1); /* BD0 = 1, BD1 = 0 */
    is("$00C fresh", memory[0x00C], 1);
    put(0, made(LDI, 0x0C, 0xA));
    put(1, made(LDI, 0x1E, 0x5));
    memory[0x01E] = 8;
    events(CYCLE, 1);
    is("$00C", memory[0x00C], 0x9);
    events(CYCLE, 1);
    is("$01E keeps WDF", memory[0x01E], 0xD);
    is("watchdog at its new period", two(R_WATCHDOG), 16);

    from("01, Writing $01E; reading 11: also with the watchdog off");
    fresh();
    put(0, made(LDI, 0x1E, 0xF));
    put(1, made(LDI, 0x1E, 3));
    put(2, made(ADI, 0x1E, 0));
    events(CYCLE, 1);
    is("WDF is not set by a write", memory[0x01E], 7);
    is("watchdog", two(R_WATCHDOG), 1);
    events(CYCLE, 1);
    is("watchdog", two(R_WATCHDOG), 128);
    set_two(R_WATCHDOG, 5);
    events(CYCLE, 1);
    is("watchdog after a read", two(R_WATCHDOG), 128);
    is("AC of the read", record[R_AC], 3);
}

static void ports(void)
{
    from("01, One instruction, HOUSE: pin where the control bit is 0, latch where 1");
    for (unsigned port = 0; port < 4; port++) {
        fresh();
        put(0, made(LDA, 0x008 + port, 0));
        put(1, made(LDI, 0x08 + port, 0x9));
        put(2, made(ORIM, 0x08 + port, 0x0));
        memory[0x008 + port] = 0xC; /* 1100 */
        memory[0x016 + port] = 0xA; /* 1010 */
        record[R_PIN_A + port] = 0x5; /* 0101 */
        events(CYCLE, 1);
        is("mixed read: 1 from the latch, 1 from the pin, 0, 1", record[R_AC], 0xD);
        events(CYCLE, 1);
        is("a write goes to the latch", memory[0x008 + port], 0x9);
        is("and not to the pins", record[R_PIN_A + port], 0x5);
        events(CYCLE, 1);
        is("a memory form writes what it read: 1101", memory[0x008 + port], 0xD);
    }
}

/* ---- Timer0 ---- */

static void timer0(void)
{
    static const unsigned ratio[7] = {2048, 512, 128, 32, 8, 4, 2};

    from("003, table 1; 01, Timer0: ratios");
    for (uint8_t mode = 0; mode < 7; mode++) {
        fresh();
        memory[0x002] = mode;
        set_two(R_T0_PRESCALER, ratio[mode] - 2);
        record[R_T0_COUNTER] = 5;
        events(CYCLE, 1);
        is("prescaler", two(R_T0_PRESCALER), ratio[mode] - 1);
        is("counter", record[R_T0_COUNTER], 5);
        events(CYCLE, 1);
        is("prescaler", two(R_T0_PRESCALER), 0);
        is("counter", record[R_T0_COUNTER], 6);
        is("no request", memory[0x001], 0);
    }

    from("003, 7.1; 01, Writing $004, $005, $002 and Timer0: reload");
    fresh();
    put(0, made(LDI, 0x04, 0xC));
    put(1, made(LDI, 0x05, 0xF));
    put(2, made(LDI, 0x02, 0xE)); /* ratio 2, reload */
    events(CYCLE, 1);
    is("load after $004", record[R_T0_LOAD], 0x0C);
    is("counter after $004", record[R_T0_COUNTER], 0);
    is("prescaler", two(R_T0_PRESCALER), 1);
    events(CYCLE, 1);
    is("load after $005", record[R_T0_LOAD], 0xFC);
    is("counter after $005", record[R_T0_COUNTER], 0xFC);
    is("prescaler", two(R_T0_PRESCALER), 2);
    from("reading 7: after a cycle that writes $002 the prescaler is 1");
    events(CYCLE, 1);
    is("prescaler", two(R_T0_PRESCALER), 1);
    events(CYCLE, 1);
    is("counter", record[R_T0_COUNTER], 0xFD);
    events(CYCLE, 5);
    is("counter", record[R_T0_COUNTER], 0xFF);
    is("no request yet", memory[0x001], 0);
    events(CYCLE, 1);
    is("reloaded", record[R_T0_COUNTER], 0xFC);
    is("IRQT0", memory[0x001], 4);

    from("01, Timer0: without reload 0");
    fresh();
    memory[0x002] = 6;
    set_two(R_T0_PRESCALER, 1);
    record[R_T0_COUNTER] = 255;
    record[R_T0_LOAD] = 0xFC;
    memory[0x001] = 1;
    events(CYCLE, 1);
    is("counter", record[R_T0_COUNTER], 0);
    is("load stays", record[R_T0_LOAD], 0xFC);
    is("IRQT0 beside what was there", memory[0x001], 5);

    from("01, (e) by the mode as it now stands");
    fresh();
    put(0, made(LDI, 0x02, 7));
    memory[0x002] = 6;
    set_two(R_T0_PRESCALER, 1);
    record[R_T0_COUNTER] = 255;
    events(CYCLE, 1);
    is("no clock once the mode is pin counting", record[R_T0_COUNTER], 255);
    is("prescaler", two(R_T0_PRESCALER), 0);
    fresh();
    put(0, made(ORIM, 0x02, 8)); /* reload is turned on by the same cycle, but the prescaler starts anew */
    memory[0x002] = 6;
    set_two(R_T0_PRESCALER, 1);
    record[R_T0_COUNTER] = 255;
    events(CYCLE, 1);
    is("counter", record[R_T0_COUNTER], 255);
    is("prescaler", two(R_T0_PRESCALER), 1);

    from("reading 7: an overflow sets its request over a write of $001");
    fresh();
    put(0, made(LDI, 0x01, 0));
    memory[0x001] = 8;
    memory[0x002] = 6;
    set_two(R_T0_PRESCALER, 1);
    record[R_T0_COUNTER] = 255;
    events(CYCLE, 1);
    is("$001", memory[0x001], 4);

    from("01, One instruction: $004/$005 read the counter live; reading 7: before (e)");
    fresh();
    put(0, made(LDA, 0x004, 0));
    put(1, made(LDA, 0x005, 0));
    memory[0x002] = 6;
    set_two(R_T0_PRESCALER, 1);
    record[R_T0_COUNTER] = 0x3F;
    events(CYCLE, 1);
    is("low digit", record[R_AC], 15);
    is("counter after (e)", record[R_T0_COUNTER], 0x40);
    events(CYCLE, 1);
    is("high digit", record[R_AC], 4);

    from("reading 10: memory forms on $004/$005 read the counter and write the load");
    fresh();
    put(0, made(ADIM, 0x04, 1));
    put(1, made(ADIM, 0x05, 1));
    record[R_T0_COUNTER] = 0x34;
    record[R_T0_LOAD] = 0x90;
    events(CYCLE, 1);
    is("AC", record[R_AC], 5);
    is("load", record[R_T0_LOAD], 0x95);
    is("counter", record[R_T0_COUNTER], 0x34);
    events(CYCLE, 1);
    is("AC", record[R_AC], 4);
    is("load", record[R_T0_LOAD], 0x45);
    is("counter", record[R_T0_COUNTER], 0x45);
    is("$004 holds nothing", memory[0x004], 0);
    is("$005 holds nothing", memory[0x005], 0);

    from("01, One instruction: writing $005 loads the counter, (e) still counts");
    fresh();
    put(0, made(LDI, 0x05, 7));
    memory[0x002] = 6;
    set_two(R_T0_PRESCALER, 1);
    events(CYCLE, 1);
    is("counter", record[R_T0_COUNTER], 0x71);
    is("load", record[R_T0_LOAD], 0x70);

    from("reading 8: any write to $002 clears the prescaler");
    fresh();
    put(0, made(STA, 0x002, 0));
    set_two(R_T0_PRESCALER, 2000);
    events(CYCLE, 1);
    is("the same value again", two(R_T0_PRESCALER), 1);

    from("01, Timer0: 7 counts falling input edges of PORTA.0");
    fresh();
    memory[0x002] = 0xF;
    memory[0x013] = 1; /* the request by rising edges; the count stays with falling ones */
    record[R_T0_COUNTER] = 254;
    record[R_T0_LOAD] = 0x21;
    record[R_PIN_A] = 1;
    events(CYCLE, 3);
    is("cycles don't count", record[R_T0_COUNTER], 254);
    events(PIN_A | 0, 1);
    is("a falling edge counts", record[R_T0_COUNTER], 255);
    is("no prescaler", two(R_T0_PRESCALER), 0);
    events(PIN_A | 1, 1);
    is("a rising edge doesn't", record[R_T0_COUNTER], 255);
    is("but asks, by $013", memory[0x001], 8);
    events(PIN_A | 1, 1);
    events(PIN_A | 0, 1);
    is("overflow reloads", record[R_T0_COUNTER], 0x21);
    is("IRQT0 beside IRQX", memory[0x001], 12);
    from("01, Timer0: input edges only");
    record[R_PIN_A] = 1;
    memory[0x016] = 1;
    events(PIN_A | 0, 1);
    is("an output pin", record[R_T0_COUNTER], 0x21);
    from("01, Timer0: of PORTA.0 only");
    record[R_PIN_A] = 14;
    memory[0x016] = 0;
    events(PIN_A | 0, 1);
    is("other pins of port A", record[R_T0_COUNTER], 0x21);
    from("01, Timer0: not in STOP; reading 13: edges set requests in every mode");
    fresh();
    memory[0x002] = 7;
    record[R_MODE] = IN_STOP;
    record[R_PIN_A] = 1;
    events(PIN_A | 0, 1);
    is("counter in STOP", record[R_T0_COUNTER], 0);
    is("IRQX in STOP", memory[0x001], 8);
    from("003, 14: HALT keeps Timer0 going");
    record[R_MODE] = IN_HALT;
    record[R_PIN_A] = 1;
    events(PIN_A | 0, 1);
    is("counter in HALT", record[R_T0_COUNTER], 1);
    memory[0x002] = 6;
    events(CYCLE, 2);
    is("counter in HALT by clocks", record[R_T0_COUNTER], 2);
    is("still in HALT", record[R_MODE], IN_HALT);
}

/* ---- Base timer ---- */

static void base_timer(void)
{
    static const int ratio[4] = {1, 4, 8, 16};

    from("003, section 8; 01, Base: ratios and overflow");
    for (uint8_t select = 0; select < 4; select++) {
        fresh();
        memory[0x003] = 8 | select;
        record[R_BASE_COUNTER] = 254;
        events(BASE_PULSE, ratio[select] - 1);
        is("prescaler", record[R_BASE_PRESCALER], ratio[select] - 1);
        is("counter", record[R_BASE_COUNTER], 254);
        events(BASE_PULSE, 1);
        is("prescaler", record[R_BASE_PRESCALER], 0);
        is("counter", record[R_BASE_COUNTER], 255);
        is("no request", memory[0x001], 0);
        events(BASE_PULSE, ratio[select]);
        is("255 plus one", record[R_BASE_COUNTER], 0);
        is("IRQBT", memory[0x001], 2);
    }

    from("003, section 8: else states disable");
    for (uint8_t mode = 0; mode < 16; mode++) {
        bool on = mode >= 8 && mode <= 11;

        fresh();
        memory[0x003] = mode;
        events(BASE_PULSE, 16);
        is("counts only when on", record[R_BASE_COUNTER] != 0, on);
    }

    from("01, Base: nothing in STOP");
    fresh();
    memory[0x003] = 8;
    record[R_BASE_COUNTER] = 255;
    record[R_MODE] = IN_STOP;
    events(BASE_PULSE, 1);
    is("counter", record[R_BASE_COUNTER], 255);
    is("no request", memory[0x001], 0);
    from("003, 14: HALT keeps the base timer going");
    record[R_MODE] = IN_HALT;
    events(BASE_PULSE, 1);
    is("counter", record[R_BASE_COUNTER], 0);
    is("IRQBT", memory[0x001], 2);

    from("reading 8: a write to $003 that leaves the timer on");
    fresh();
    put(0, made(LDI, 0x03, 0xB));
    memory[0x003] = 0xB;
    record[R_BASE_PRESCALER] = 15;
    record[R_BASE_COUNTER] = 77;
    events(CYCLE, 1);
    is("prescaler", record[R_BASE_PRESCALER], 0);
    is("counter", record[R_BASE_COUNTER], 77);
    from("01, Base: a write that disables clears both");
    put(1, made(LDI, 0x03, 0xC));
    record[R_BASE_PRESCALER] = 15;
    events(CYCLE, 1);
    is("prescaler", record[R_BASE_PRESCALER], 0);
    is("counter", record[R_BASE_COUNTER], 0);
    is("$003", memory[0x003], 0xC);
}

/* ---- Watchdog ---- */

static void watchdog(void)
{
    static const unsigned period[8] = {4096, 1024, 256, 128, 64, 16, 4, 1};

    from("003, section 9; 01, Watchdog: periods");
    for (uint8_t select = 0; select < 8; select++) {
        fresh_with(1);
        put(0, made(LDI, 0x1E, select));
        events(CYCLE, 1);
        is("count after a write", two(R_WATCHDOG), period[select]);
        set_two(R_PC, 0x123);
        events(WATCHDOG_PULSE, (int)period[select] - 1);
        is("count before the end", two(R_WATCHDOG), 1);
        is("PC before the end", two(R_PC), 0x123);
        events(WATCHDOG_PULSE, 1);
        is("PC after the reset", two(R_PC), 0);
        is("$01E after the reset", memory[0x01E], 8);
        is("count after the reset", two(R_WATCHDOG), 4096);
    }

    from("01, Watchdog, when on; reading 11");
    fresh();
    set_two(R_WATCHDOG, 1);
    set_two(R_PC, 0x123);
    events(WATCHDOG_PULSE, 3);
    is("count when off", two(R_WATCHDOG), 1);
    is("PC when off", two(R_PC), 0x123);

    from("003, section 9: it runs in STOP; 01, Reset: mode running");
    fresh_with(1);
    record[R_MODE] = IN_STOP;
    set_two(R_WATCHDOG, 2);
    set_two(R_PC, 0x456);
    events(WATCHDOG_PULSE, 1);
    is("mode before", record[R_MODE], IN_STOP);
    is("count before", two(R_WATCHDOG), 1);
    events(WATCHDOG_PULSE, 1);
    is("mode after", record[R_MODE], RUNNING);
    is("PC after", two(R_PC), 0);
    is("WDF", memory[0x01E], 8);
    from("003, 14: it runs in HALT");
    record[R_MODE] = IN_HALT;
    events(WATCHDOG_PULSE, 1);
    is("count in HALT", two(R_WATCHDOG), 4095);
    is("mode", record[R_MODE], IN_HALT);
}

/* ---- Reset ---- */

/* Before, and after each column of 003's table 3.3 (x as 0, u as before). Bonding is BD0 = 1, BD1 = 0. */
static const struct row {
    unsigned address;
    uint8_t before, pin, wdt;
} rows[] = {
    {0x000, 0xF, 0, 0},   {0x001, 0xF, 0, 0},   {0x002, 0xE, 0, 0xE}, {0x003, 0xB, 0, 0xB}, {0x004, 0, 0, 0},
    {0x005, 0, 0, 0},     {0x006, 0, 0, 0},     {0x007, 0x7, 0, 0x7}, {0x008, 0xF, 0, 0},   {0x009, 0xF, 0, 0},
    {0x00A, 0xF, 0, 0},   {0x00B, 0xF, 0, 0},   {0x00C, 0xD, 1, 0xD}, {0x00D, 0xF, 0, 0xF}, {0x00E, 0xF, 0, 0xF},
    {0x00F, 0, 0, 0},     {0x010, 0xF, 0, 0xF}, {0x011, 0x7, 0, 0x7}, {0x012, 0x7, 0, 0x7}, {0x013, 0xF, 4, 0x7},
    {0x014, 0xB, 0, 0x9}, {0x015, 0xF, 0, 0xF}, {0x016, 0xF, 0, 0},   {0x017, 0xF, 0, 0},   {0x018, 0xF, 0, 0},
    {0x019, 0xF, 0, 0},   {0x01A, 0xF, 0, 0xF}, {0x01B, 0xF, 0, 0xF}, {0x01C, 0xF, 0, 0xF}, {0x01D, 0xF, 0, 0xF},
    {0x01E, 0xF, 0, 0x8}, {0x01F, 0, 0, 0},     {0x370, 0xF, 0, 0xF}, {0x371, 0xF, 0, 0xF}, {0x372, 0xF, 0, 0xF},
    {0x373, 0xF, 0, 0xF}, {0x374, 0xF, 0, 0xF}, {0x375, 0xF, 0, 0xF}, {0x376, 0xF, 0, 0xF}, {0x377, 0xF, 0, 0xC},
};
enum { ROWS = sizeof rows / sizeof rows[0] };

static void before_reset(void)
{
    fresh_with(1 | 2);
    for (int row = 0; row < ROWS; row++)
        memory[rows[row].address] = rows[row].before;
    memory[0x020] = 1;
    memory[0x16F] = 2;
    memory[0x300] = 3;
    memory[0x348] = 4;
    memory[0x358] = 5;
    memory[0x36D] = 6;
    set_two(R_PC, 0xABC);
    record[R_AC] = 9;
    record[R_CY] = 1;
    record[R_MODE] = IN_HALT;
    for (int level = 0; level < 8; level++)
        set_two(R_STACK + 2 * level, 0x1FFF);
    set_two(R_T0_PRESCALER, 1);
    record[R_T0_COUNTER] = 200;
    record[R_T0_LOAD] = 100;
    record[R_BASE_PRESCALER] = 15;
    record[R_BASE_COUNTER] = 50;
    set_two(R_WATCHDOG, 1);
    record[R_PIN_A] = 1;
    record[R_PIN_B] = 2;
    record[R_PIN_C] = 4;
    record[R_PIN_D] = 8;
    record[R_PENDING] = 1;
    set_two(R_PENDING_ADDRESS, 0x123);
    set_two(R_COUNT_1, 1015);
    record[R_OUTPUT_1] = 1;
    set_two(R_COUNT_2, 512);
    record[R_OUTPUT_2] = 1;
    record[R_FROZEN] = 7;
    record[R_FROZEN_MARK] = 1;
}

static void after_reset(void)
{
    int stack_left = 0;

    from("01, Reset, HOUSE");
    is("PC", two(R_PC), 0);
    is("AC", record[R_AC], 0);
    is("CY", record[R_CY], 0);
    is("mode", record[R_MODE], RUNNING);
    for (int level = 0; level < 8; level++)
        stack_left += stack_entry(level) != 0;
    is("stack entries left", stack_left, 0);
    is("Timer0 prescaler", two(R_T0_PRESCALER), 0);
    is("Timer0 counter", record[R_T0_COUNTER], 0);
    is("Timer0 load", record[R_T0_LOAD], 0);
    is("base prescaler", record[R_BASE_PRESCALER], 0);
    is("base counter", record[R_BASE_COUNTER], 0);
    is("watchdog", two(R_WATCHDOG), 4096);
    is("pending read", record[R_PENDING], 0);
    is("its address", two(R_PENDING_ADDRESS), 0);
    from("02, P1: 0 after any reset");
    is("count of channel 1", two(R_COUNT_1), 0);
    is("output of channel 1", record[R_OUTPUT_1], 0);
    is("count of channel 2", two(R_COUNT_2), 0);
    is("output of channel 2", record[R_OUTPUT_2], 0);
    from("02, P2: a reset releases");
    is("frozen nibble", record[R_FROZEN], 0);
    is("its mark", record[R_FROZEN_MARK], 0);
    from("01, Reset: pins and cells stay");
    is("pins A", record[R_PIN_A], 1);
    is("pins B", record[R_PIN_B], 2);
    is("pins C", record[R_PIN_C], 4);
    is("pins D", record[R_PIN_D], 8);
    is("options", record[R_OPTIONS], 3);
    is("$020", memory[0x020], 1);
    is("$16F", memory[0x16F], 2);
    is("$300", memory[0x300], 3);
    is("$348", memory[0x348], 4);
    is("$358", memory[0x358], 5);
    is("$36D", memory[0x36D], 6);
}

static void resets(void)
{
    before_reset();
    is("pin reset", step(RESET_PIN), 0);
    from("003, table 3.3, first column");
    for (int row = 0; row < ROWS; row++)
        is("a register after the pin reset", memory[rows[row].address], rows[row].pin);
    after_reset();

    before_reset();
    is("watchdog reset", step(WATCHDOG_PULSE), 0);
    from("003, table 3.3, second column");
    for (int row = 0; row < ROWS; row++)
        is("a register after the watchdog reset", memory[rows[row].address], rows[row].wdt);
    after_reset();

    from("003, table 3.3: $013 and $014, u of 0 is 0");
    fresh_with(1);
    memory[0x013] = 0;
    memory[0x01E] = 7;
    set_two(R_WATCHDOG, 1);
    events(WATCHDOG_PULSE, 1);
    is("$013", memory[0x013], 0);
    is("$014", memory[0x014], 0);
    is("$01E", memory[0x01E], 8);

    from("01, Reset: a fresh machine");
    for (unsigned options = 0; options < 8; options++) {
        int other = 0;

        fresh_with(options);
        is("$00C by BD0 and BD1", memory[0x00C], options >> 1);
        is("$013 by the table", memory[0x013], 4);
        for (unsigned address = 0; address < 1024; address++)
            other += address != 0x00C && address != 0x013 && memory[address] != 0;
        is("other cells that aren't 0", other, 0);
        is("options", record[R_OPTIONS], options);
        is("watchdog", two(R_WATCHDOG), 4096);
        other = 0;
        for (int at = 0; at < 45; at++)
            other += at != R_OPTIONS && at != R_WATCHDOG && record[at] != 0;
        is("other record bytes that aren't 0", other, 0);
        is("a cycle", step(CYCLE), 0);
    }

    from("reading 15: a reset makes no edges");
    fresh();
    record[R_PIN_A] = 15;
    record[R_PIN_B] = 15;
    memory[0x016] = 15;
    memory[0x017] = 15;
    events(RESET_PIN, 1);
    is("$001", memory[0x001], 0);
}

/* ---- Interrupts, HALT and STOP ---- */

static void interrupts(void)
{
    static const struct {
        uint8_t enabled, requested;
        unsigned vector; /* 0 where none is taken */
    } cases[] = {
        {8, 8, 1}, {4, 4, 2}, {2, 2, 3}, {1, 1, 4}, {15, 15, 1}, {7, 15, 2}, {15, 3, 3}, {1, 15, 4}, {15, 5, 2},
        {8, 7, 0}, {0, 15, 0}, {15, 0, 0}, {5, 10, 0},
    };

    from("003, 2.1 and 13.1; 01, (b)");
    for (size_t at = 0; at < sizeof cases / sizeof cases[0]; at++) {
        fresh();
        put(0x345, made(LDI, 0x20, 9));
        set_two(R_PC, 0x345);
        record[R_CY] = 1;
        memory[0x000] = cases[at].enabled;
        memory[0x001] = cases[at].requested;
        events(CYCLE, 1);
        is("$001 is left", memory[0x001], cases[at].requested);
        if (cases[at].vector) {
            is("vector", two(R_PC), cases[at].vector);
            is("pushed", stack_entry(0), 0x1345);
            is("$000 is cleared", memory[0x000], 0);
            is("no instruction in that cycle", memory[0x020], 0);
        } else {
            is("PC", two(R_PC), 0x346);
            is("nothing pushed", stack_entry(0), 0);
            is("$000 is left", memory[0x000], cases[at].enabled);
            is("the instruction", memory[0x020], 9);
        }
        is("(e) either way", two(R_T0_PRESCALER), 1);
        is("CY is left", record[R_CY], 1);
    }

    from("01, (b) and reading 4: no delay after the enabling instruction");
    fresh();
    put(0, made(LDI, 0x00, 1));
    memory[0x001] = 1;
    events(CYCLE, 1);
    is("PC after enabling", two(R_PC), 1);
    events(CYCLE, 1);
    is("PC in the next cycle", two(R_PC), 4);
    is("pushed", stack_entry(0), 1);

    from("01, Errors: the request is not cleared on entry");
    put(4, made(LDI, 0x00, 1));
    events(CYCLE, 1);
    events(CYCLE, 1);
    is("enabled again, it comes again", two(R_PC), 4);
    is("pushed", stack_entry(0), 5);

    from("01, (b) before (c): an interrupt in front of an unlisted word");
    fresh();
    put(0, 0xC800);
    memory[0x000] = 4;
    memory[0x001] = 4;
    is("is taken", step(CYCLE), 0);
    is("PC", two(R_PC), 2);
}

static void asleep(void)
{
    uint8_t memory_before[1024];
    uint8_t record_before[45];

    from("003, 14; reading 1: the cycle that executes HALT does (e)");
    fresh();
    put(0x010, made(HALT, 0, 0));
    set_two(R_PC, 0x010);
    events(CYCLE, 1);
    is("mode", record[R_MODE], IN_HALT);
    is("PC", two(R_PC), 0x011);
    is("prescaler", two(R_T0_PRESCALER), 1);
    from("01, (a): asleep it does (d) and (e) only");
    record[R_PENDING] = 1;
    set_two(R_PENDING_ADDRESS, 0x010);
    put(0x011, 0xC800);
    events(CYCLE, 1);
    is("prescaler", two(R_T0_PRESCALER), 2);
    is("PC", two(R_PC), 0x011);
    is("$01D of $D800", memory[0x01D], 0xD);
    is("$01C of $D800", memory[0x01C], 0x8);
    is("read is over", record[R_PENDING], 0);
    is("its address is 0", two(R_PENDING_ADDRESS), 0);

    from("01, (a): HALT wakes on any of the four; reading 2");
    static const struct {
        uint8_t source;
        unsigned vector;
    } four[] = {{8, 1}, {4, 2}, {2, 3}, {1, 4}};
    for (int at = 0; at < 4; at++) {
        fresh();
        record[R_MODE] = IN_HALT;
        set_two(R_PC, 0x234);
        memory[0x000] = four[at].source;
        memory[0x001] = 15 & ~four[at].source;
        events(CYCLE, 1);
        is("requested but not enabled, it sleeps", record[R_MODE], IN_HALT);
        memory[0x001] = four[at].source;
        events(CYCLE, 1);
        is("mode", record[R_MODE], RUNNING);
        is("vector", two(R_PC), four[at].vector);
        is("pushed", stack_entry(0), 0x234);
        is("$000", memory[0x000], 0);
        is("$001", memory[0x001], four[at].source);
        is("(e)", two(R_T0_PRESCALER), 2);
    }

    from("01, (e) in HALT, then (a): Timer0 wakes it");
    fresh();
    put(0, made(HALT, 0, 0));
    memory[0x000] = 4;
    memory[0x002] = 6;
    record[R_T0_COUNTER] = 255;
    events(CYCLE, 1);
    is("asleep", record[R_MODE], IN_HALT);
    events(CYCLE, 1);
    is("IRQT0 from (e)", memory[0x001], 4);
    is("still asleep", record[R_MODE], IN_HALT);
    events(CYCLE, 1);
    is("awake", record[R_MODE], RUNNING);
    is("vector", two(R_PC), 2);
    is("pushed: after the HALT", stack_entry(0), 1);

    from("reading 1: the cycle that executes STOP does (d) and (e)");
    fresh();
    put(0x010, made(STOP, 0, 0));
    set_two(R_PC, 0x010);
    record[R_PENDING] = 1;
    set_two(R_PENDING_ADDRESS, 0x010);
    events(CYCLE, 1);
    is("mode", record[R_MODE], IN_STOP);
    is("PC", two(R_PC), 0x011);
    is("$01C of $DC00", memory[0x01C], 0xC);
    is("prescaler", two(R_T0_PRESCALER), 1);

    from("01, (a); reading 3: a STOP that is not woken changes nothing at all");
    fresh();
    put(0x020, 0x1234);
    record[R_MODE] = IN_STOP;
    memory[0x000] = 15;
    memory[0x001] = 6; /* Timer0 and base can't wake it */
    memory[0x002] = 6;
    set_two(R_T0_PRESCALER, 1);
    record[R_T0_COUNTER] = 255;
    record[R_PENDING] = 1;
    set_two(R_PENDING_ADDRESS, 0x020);
    set_two(R_PC, 0x077);
    memcpy(memory_before, memory, sizeof memory);
    memcpy(record_before, record, sizeof record);
    events(CYCLE, 3);
    is("memory changed", memcmp(memory, memory_before, sizeof memory) != 0, 0);
    is("record changed", memcmp(record, record_before, sizeof record) != 0, 0);
    events(PIN_B | 1, 1);
    events(PIN_B | 0, 1);
    is("a port edge asks", memory[0x001], 7);
    from("reading 2: woken, the vector is the first of all four; reading 3: the read lands then");
    events(CYCLE, 1);
    is("mode", record[R_MODE], RUNNING);
    is("vector", two(R_PC), 2);
    is("pushed", stack_entry(0), 0x077);
    is("$01A", memory[0x01A], 4);
    is("$01B", memory[0x01B], 3);
    is("$01C", memory[0x01C], 2);
    is("$01D", memory[0x01D], 1);
    is("read is over", record[R_PENDING], 0);
    is("(e): counter", record[R_T0_COUNTER], 0);
    is("(e): prescaler", two(R_T0_PRESCALER), 0);

    from("01, (a): external wakes STOP");
    fresh();
    record[R_MODE] = IN_STOP;
    memory[0x000] = 8;
    events(PIN_A | 1, 1);
    events(CYCLE, 1);
    is("a rising edge is not the one chosen", record[R_MODE], IN_STOP);
    events(PIN_A | 0, 1);
    events(CYCLE, 1);
    is("mode", record[R_MODE], RUNNING);
    is("vector", two(R_PC), 1);

    from("reading 5: enabled and requested are matched source by source");
    fresh();
    record[R_MODE] = IN_STOP;
    memory[0x000] = 8;
    memory[0x001] = 1;
    events(CYCLE, 1);
    is("mode", record[R_MODE], IN_STOP);

    from("01, Events: the reset pin ends STOP");
    events(RESET_PIN, 1);
    is("mode", record[R_MODE], RUNNING);
}

/* ---- ROM read ---- */

static void rom_read(void)
{
    from("003, section 11; 01, Writing $01A and (d)");
    fresh();
    put(0x000, made(LDI, 0x1C, 0xA));
    put(0x001, made(LDI, 0x1B, 0xB));
    put(0x002, made(LDI, 0x1A, 0xC));
    put(0xABC, 0x9876);
    events(CYCLE, 3);
    is("pending", record[R_PENDING], 1);
    is("address", two(R_PENDING_ADDRESS), 0xABC);
    is("$01A so far", memory[0x01A], 0xC);
    events(CYCLE, 1);
    is("$01A", memory[0x01A], 6);
    is("$01B", memory[0x01B], 7);
    is("$01C", memory[0x01C], 8);
    is("$01D", memory[0x01D], 9);
    is("no longer pending", record[R_PENDING], 0);
    is("address", two(R_PENDING_ADDRESS), 0);

    from("01, (d): over any write");
    fresh();
    put(0x000, 0x781A); /* LDI $1A,0 asks for $000, where it stands itself */
    put(0x001, made(LDI, 0x1D, 0x5));
    events(CYCLE, 2);
    is("$01A", memory[0x01A], 0xA);
    is("$01B", memory[0x01B], 0x1);
    is("$01C", memory[0x01C], 0x8);
    is("$01D is 7, not the 5 written", memory[0x01D], 0x7);

    from("01, (d); reading 6: a read that meets a write of $01A");
    fresh();
    put(0x000, made(LDI, 0x1A, 0x3)); /* asks for $003 */
    put(0x001, made(LDI, 0x1A, 0x7)); /* asks for $007 while $003 lands */
    put(0x003, 0x4567);
    put(0x007, 0x89AB);
    put(0x567, 0x1111);
    events(CYCLE, 2);
    is("$01A is the landed word's, not 7", memory[0x01A], 0x7);
    is("$01B", memory[0x01B], 0x6);
    is("$01C", memory[0x01C], 0x5);
    is("$01D", memory[0x01D], 0x4);
    is("the new read stays pending", record[R_PENDING], 1);
    is("at the address its own write made", two(R_PENDING_ADDRESS), 0x007);
    put(0x002, 0xFFFF);
    events(CYCLE, 1);
    is("$01A", memory[0x01A], 0xB);
    is("$01D", memory[0x01D], 0x8);
    is("over", record[R_PENDING], 0);

    from("01, (d): a read lands in a cycle that takes an interrupt");
    fresh();
    put(0x000, made(LDI, 0x1A, 0x8));
    put(0x008, 0x2468);
    events(CYCLE, 1);
    memory[0x000] = 1;
    memory[0x001] = 1;
    events(CYCLE, 1);
    is("vector", two(R_PC), 4);
    is("$01A", memory[0x01A], 8);
    is("$01D", memory[0x01D], 2);

    from("01, One instruction: only $01A asks");
    fresh();
    put(0x000, made(LDI, 0x1B, 1));
    put(0x001, made(LDI, 0x1C, 1));
    put(0x002, made(LDI, 0x1D, 1));
    put(0x003, made(LDA, 0x01A, 0));
    events(CYCLE, 4);
    is("nothing pending", record[R_PENDING], 0);

    from("reading 10: a memory form writes $01A too");
    fresh();
    put(0x000, made(ADIM, 0x1A, 0));
    memory[0x01A] = 2;
    memory[0x01C] = 1;
    events(CYCLE, 1);
    is("pending", record[R_PENDING], 1);
    is("address", two(R_PENDING_ADDRESS), 0x102);
}

/* ---- Edges ---- */

static void edges(void)
{
    static const struct {
        uint8_t event; /* high nibble: the port */
        uint8_t before, choice, control;
        uint8_t requests;
    } cases[] = {
        {PIN_A | 0x0, 0x1, 0, 0x0, 8},  {PIN_A | 0x1, 0x0, 0, 0x0, 0},  {PIN_A | 0x1, 0x0, 1, 0x0, 8},
        {PIN_A | 0x0, 0x1, 1, 0x0, 0},  {PIN_A | 0x0, 0x1, 0, 0x1, 0},  {PIN_A | 0x0, 0x1, 0, 0xE, 8},
        {PIN_A | 0x0, 0xE, 0, 0x0, 0},  {PIN_A | 0x1, 0x1, 1, 0x0, 0},  {PIN_A | 0x0, 0x1, 2, 0x0, 8},
        {PIN_B | 0x7, 0xF, 0, 0x0, 1},  {PIN_B | 0xF, 0x7, 0, 0x0, 0},  {PIN_B | 0xF, 0x7, 2, 0x0, 1},
        {PIN_B | 0x7, 0xF, 2, 0x0, 0},  {PIN_B | 0x7, 0xF, 0, 0x8, 0},  {PIN_B | 0x3, 0xF, 0, 0x8, 1},
        {PIN_B | 0x7, 0xF, 1, 0x0, 1},  {PIN_C | 0xE, 0xF, 0, 0x0, 1},  {PIN_C | 0x1, 0x0, 2, 0x0, 1},
        {PIN_C | 0x1, 0x0, 2, 0x1, 0},  {PIN_C | 0x1, 0x2, 0, 0x0, 1},  {PIN_C | 0x1, 0x2, 2, 0x0, 1},
        {PIN_D | 0x0, 0xF, 0, 0x0, 0},  {PIN_D | 0xF, 0x0, 3, 0x0, 0},
        /* other pins of the port need not be at rest (reading 13) */
        {PIN_B | 0x0, 0x1, 0, 0x0, 1},
    };

    from("01, Edges; 003, 6");
    for (size_t at = 0; at < sizeof cases / sizeof cases[0]; at++) {
        unsigned port = (cases[at].event >> 4) - 1u;

        fresh();
        record[R_PIN_A + port] = cases[at].before;
        memory[0x013] = cases[at].choice;
        memory[0x016 + port] = cases[at].control;
        events(cases[at].event, 1);
        is("$001", memory[0x001], cases[at].requests);
        is("pins", record[R_PIN_A + port], cases[at].event & 15);
        is("PC is left", two(R_PC), 0);
        is("latch is left", memory[0x008 + port], 0);
        is("no clock", two(R_T0_PRESCALER), 0);
    }

    from("reading 14: sharing with segments and sound changes nothing");
    fresh();
    memory[0x00C] = 0xC;
    memory[0x00D] = 0xF;
    record[R_PIN_C] = 1;
    events(PIN_C | 0, 1);
    is("$001", memory[0x001], 1);
}

/* ---- Sound ---- */

/* Channel 1 or 2 sounds by these seven bits and this octave bit. */
static void tone(int channel, unsigned value, unsigned octave)
{
    unsigned low = channel == 1 ? 0x371 : 0x375;

    memory[low] = value & 15;
    memory[low + 1] = (uint8_t)(octave << 3 | value >> 4);
    memory[0x377] |= (uint8_t)channel;
}

static unsigned count_of(int channel)
{
    return two(channel == 1 ? R_COUNT_1 : R_COUNT_2);
}

static unsigned output_of(int channel)
{
    return record[channel == 1 ? R_OUTPUT_1 : R_OUTPUT_2];
}

/* From a fresh machine the output turns after the clock with this number, and again after as many. */
static void turns_after(int channel, unsigned value, unsigned octave, int clocks)
{
    fresh();
    tone(channel, value, octave);
    events(SOUND_CLOCK, clocks - 1);
    is("output before its turn", output_of(channel), 0);
    is("count before its turn", count_of(channel), clocks > 1);
    events(SOUND_CLOCK, 1);
    is("output", output_of(channel), 1);
    is("count", count_of(channel), 0);
    events(SOUND_CLOCK, clocks - 1);
    is("output before its second turn", output_of(channel), 1);
    events(SOUND_CLOCK, 1);
    is("output after its second turn", output_of(channel), 0);
}

static void tones(void)
{
    static const struct {
        uint8_t value, n;
    } printed[] = {{0x01, 127}, {0x02, 126}, {0x41, 121}, {0x03, 120}, {0x23, 108}, {0x3C, 104}, {0x79, 103},
                   {0x72, 102}, {0x0B, 96},  {0x16, 95},  {0x4F, 81},  {0x50, 74},  {0x09, 64},  {0x12, 63},
                   {0x25, 32},  {0x4B, 31},  {0x19, 19},  {0x7F, 7},   {0x7E, 6},   {0x78, 4},   {0x60, 2},
                   {0x40, 1}};
    unsigned value = 0x01;

    from("003, 12, the table of N; 02, P1: $79 at N 103");
    for (size_t at = 0; at < sizeof printed / sizeof printed[0]; at++)
        for (int channel = 1; channel <= 2; channel++)
            turns_after(channel, printed[at].value, 0, printed[at].n);

    from("003, 12, OCT1 and OCT2: 1/8");
    turns_after(1, 0x23, 1, 864);  /* example 4: C2 at 112.5 kHz */
    turns_after(2, 0x23, 1, 864);
    turns_after(1, 0x01, 1, 1016);
    turns_after(2, 0x01, 1, 1016);
    turns_after(1, 0x40, 1, 8);
    turns_after(2, 0x40, 1, 8);

    from("02, P1: shift left within seven bits, the new low bit the exclusive or of the two top bits");
    for (int n = 127; n >= 1; n--) {
        turns_after(1, value, 0, n);
        value = (value << 1 & 0x7F) | ((value >> 6 ^ value >> 5) & 1);
    }
    is("the value after $40", value, 0x01);
}

/* What one sound clock makes of a channel by the registers that it meets. */
static void one_clock(void)
{
    from("02, P1: a count of 0 is first set by the registers as they stand");
    fresh();
    tone(1, 0x7F, 0);
    events(SOUND_CLOCK, 1);
    is("7, less one", count_of(1), 6);
    is("output", output_of(1), 0);
    tone(1, 0x01, 1);
    is("a register moves no count", count_of(1), 6);
    events(SOUND_CLOCK, 5);
    is("the old count goes on", count_of(1), 1);
    events(SOUND_CLOCK, 1);
    is("at 0", count_of(1), 0);
    is("the output turns", output_of(1), 1);
    events(SOUND_CLOCK, 1);
    is("8 x 127, less one", count_of(1), 1015);
    is("output", output_of(1), 1);

    from("02, P1: a store moves neither count nor output");
    for (unsigned address = 0x370; address <= 0x377; address++) {
        fresh();
        put(0, made(STA, address, 0));
        record[R_AC] = 15;
        set_two(R_COUNT_1, 5);
        record[R_OUTPUT_1] = 1;
        set_two(R_COUNT_2, 9);
        record[R_OUTPUT_2] = 1;
        events(CYCLE, 1);
        is("the register", memory[address], 15);
        is("count of channel 1", count_of(1), 5);
        is("output of channel 1", output_of(1), 1);
        is("count of channel 2", count_of(2), 9);
        is("output of channel 2", output_of(2), 1);
    }

    from("02, P1: N 1 turns at each clock and leaves 0");
    fresh();
    tone(1, 0x40, 0);
    for (int clock = 1; clock <= 4; clock++) {
        events(SOUND_CLOCK, 1);
        is("count", count_of(1), 0);
        is("output", output_of(1), clock % 2);
    }

    from("02, P1: nothing ties a count to N");
    fresh();
    tone(2, 0x40, 0);
    set_two(R_COUNT_2, 1015);
    events(SOUND_CLOCK, 1);
    is("count", count_of(2), 1014);

    from("02, P1: channel 2 uses C2.14-C2.8; $373, $374, SEL and VOL play no part");
    fresh();
    tone(2, 0x7F, 0);
    memory[0x373] = 15;
    memory[0x374] = 15;
    memory[0x370] = 12;
    memory[0x377] |= 12;
    events(SOUND_CLOCK, 1);
    is("7, less one", count_of(2), 6);

    from("02, P1: each channel by itself");
    fresh();
    tone(1, 0x60, 0);
    tone(2, 0x70, 0);
    events(SOUND_CLOCK, 3);
    is("count of channel 1", count_of(1), 1);
    is("output of channel 1", output_of(1), 1);
    is("count of channel 2", count_of(2), 0);
    is("output of channel 2", output_of(2), 1);
}

/* A channel as it stands after clocks that must leave it. */
static void holds_still(int channel, int clocks)
{
    unsigned count = count_of(channel), output = output_of(channel);

    events(SOUND_CLOCK, clocks);
    is("count that is held", count_of(channel), count);
    is("output that is held", output_of(channel), output);
}

/* Both channels in the middle of a tone, channel 1 with 4 clocks left and channel 2 with 1. */
static void two_tones(void)
{
    fresh();
    tone(1, 0x7F, 0);
    tone(2, 0x7F, 0);
    set_two(R_COUNT_1, 4);
    record[R_OUTPUT_1] = 1;
    set_two(R_COUNT_2, 1);
}

static void channels_hold(void)
{
    from("02, P1: a channel holds when disabled");
    two_tones();
    memory[0x377] = 2;
    holds_still(1, 3);
    is("channel 2 goes on", output_of(2), 1);
    two_tones();
    memory[0x377] = 1;
    holds_still(2, 3);
    is("channel 1 goes on", count_of(1), 1);
    memory[0x377] = 12;
    holds_still(1, 3);
    holds_still(2, 3);

    from("02, P1: a channel holds when its seven bits are 0, whatever the octave bit");
    for (unsigned octave = 0; octave < 2; octave++) {
        two_tones();
        tone(1, 0, octave);
        holds_still(1, 3);
        set_two(R_COUNT_1, 0);
        holds_still(1, 3);
        two_tones();
        tone(2, 0, octave);
        holds_still(2, 3);
        set_two(R_COUNT_2, 0);
        holds_still(2, 3);
    }

    from("02, P1: channel 2 holds when C1M or C2M is 1; C1M does not stop channel 1");
    for (uint8_t mode = 1; mode < 4; mode++) {
        two_tones();
        memory[0x370] = mode;
        holds_still(2, 3);
        is("channel 1 goes on", count_of(1), 1);
        set_two(R_COUNT_2, 0);
        holds_still(2, 1);
        is("channel 1 turns", output_of(1), 0);
        memory[0x370] = 0;
        events(SOUND_CLOCK, 1);
        is("channel 2 goes on after it", count_of(2), 6);
    }
}

static void sound_and_modes(void)
{
    static const uint8_t script[] = {SOUND_CLOCK, SOUND_CLOCK, CYCLE, SOUND_CLOCK};
    uint8_t memory_before[1024];
    uint8_t record_before[45];

    from("02, P1: idle in STOP");
    two_tones();
    record[R_MODE] = IN_STOP;
    memcpy(memory_before, memory, sizeof memory);
    memcpy(record_before, record, sizeof record);
    is("known in STOP", step(SOUND_CLOCK), 0);
    events(SOUND_CLOCK, 9);
    is("memory changed", memcmp(memory, memory_before, sizeof memory) != 0, 0);
    is("record changed", memcmp(record, record_before, sizeof record) != 0, 0);

    from("02, P1: HALT does not stop sound");
    record[R_MODE] = IN_HALT;
    events(SOUND_CLOCK, 4);
    is("count of channel 1", count_of(1), 0);
    is("output of channel 1", output_of(1), 0);
    is("asleep still", record[R_MODE], IN_HALT);

    from("02, P1: a sound clock moves the channels alone");
    two_tones();
    record[R_FROZEN] = 7;
    record[R_FROZEN_MARK] = 1;
    memcpy(memory_before, memory, sizeof memory);
    memcpy(record_before, record, sizeof record);
    events(SOUND_CLOCK, 1);
    is("memory changed, so that nothing is requested", memcmp(memory, memory_before, sizeof memory) != 0, 0);
    is("fields before them changed", memcmp(record, record_before, R_COUNT_1) != 0, 0);
    is("the frozen nibble", record[R_FROZEN], 7);
    is("its mark", record[R_FROZEN_MARK], 1);
    is("count of channel 1", count_of(1), 3);
    is("output of channel 2", output_of(2), 1);

    from("02, P1: a cycle moves no channel");
    events(CYCLE, 3);
    is("count of channel 1", count_of(1), 3);
    is("output of channel 2", output_of(2), 1);

    from("02, P1: $05 is an event done, and the stop address is not looked at after it");
    fresh();
    is("answer", run(script, 4, 0), 0);
    is("reason", reason, 2);
    is("events", (long long)done_events, 4);
    fresh();
    is("answer", run(script, 4, 1), 0);
    is("after the cycle it is", reason, 0);
    is("events", (long long)done_events, 3);

    from("01, One instruction: $370-$377 read 0, a memory form starts from 0");
    fresh();
    tone(1, 0x7F, 1);
    put(0, made(LDA, 0x377, 0));
    put(1, made(ORM, 0x377, 0));
    record[R_AC] = 5;
    events(CYCLE, 1);
    is("LDA of the enables", record[R_AC], 0);
    record[R_AC] = 2;
    events(CYCLE, 1);
    is("ORM leaves channel 2 alone enabled", memory[0x377], 2);
    holds_still(1, 3);
}

static void resets_and_sound(void)
{
    from("02, P1; 003, table 3.3: after a pin reset both channels are off and at 0");
    two_tones();
    events(RESET_PIN, 1);
    is("$377", memory[0x377], 0);
    holds_still(1, 3);
    is("count of channel 1", count_of(1), 0);
    is("output of channel 1", output_of(1), 0);

    from("02, P1; 003, table 3.3: after a watchdog reset the tone's registers stay and its channels are off and at 0");
    fresh_with(1);
    tone(1, 0x7F, 0);
    set_two(R_COUNT_1, 4);
    record[R_OUTPUT_1] = 1;
    set_two(R_WATCHDOG, 1);
    events(WATCHDOG_PULSE, 1);
    is("$371", memory[0x371], 15);
    is("$377", memory[0x377], 0);
    is("count of channel 1", count_of(1), 0);
    is("output of channel 1", output_of(1), 0);
    memory[0x377] = 1;
    events(SOUND_CLOCK, 1);
    is("a new tone begins with N", count_of(1), 6);
}

static void sound(void)
{
    tones();
    one_clock();
    channels_hold();
    sound_and_modes();
    resets_and_sound();
}

/* ---- Timer0 read in two halves ---- */

/* Every form that names a cell; what it leaves in AC where the cell reads as 9, 6 and 12, with 3 for AC and immediate
   and 0 for CY; and whether it reads and whether it writes (01, One instruction; 003, section 17; 02, P6). */
static const struct form {
    enum mnemonic mnemonic;
    uint8_t of_9, of_6, of_12;
    bool reads, writes;
} forms[] = {
    {ADC, 12, 9, 15, true, false},   {ADCM, 12, 9, 15, true, true},  {ADD, 12, 9, 15, true, false},
    {ADDM, 12, 9, 15, true, true},   {SBC, 5, 2, 8, true, false},    {SBCM, 5, 2, 8, true, true},
    {SUB, 6, 3, 9, true, false},     {SUBM, 6, 3, 9, true, true},    {EOR, 10, 5, 15, true, false},
    {EORM, 10, 5, 15, true, true},   {OR, 11, 7, 15, true, false},   {ORM, 11, 7, 15, true, true},
    {AND, 1, 2, 0, true, false},     {ANDM, 1, 2, 0, true, true},    {LDA, 9, 6, 12, true, false},
    {STA, 3, 3, 3, false, true},     {ADI, 12, 9, 15, true, false},  {ADIM, 12, 9, 15, true, true},
    {SBI, 6, 3, 9, true, false},     {SBIM, 6, 3, 9, true, true},    {EORIM, 10, 5, 15, true, true},
    {ORIM, 11, 7, 15, true, true},   {ANDIM, 1, 2, 0, true, true},   {LDI, 3, 3, 3, false, true},
    {DAA, 9, 6, 2, true, true},      {DAS, 3, 0, 6, true, true},
};
enum { FORMS = sizeof forms / sizeof forms[0] };

static void set_frozen(uint8_t nibble)
{
    record[R_FROZEN] = nibble;
    record[R_FROZEN_MARK] = 1;
}

static void is_frozen(uint8_t nibble)
{
    is("frozen nibble", record[R_FROZEN], nibble);
    is("its mark", record[R_FROZEN_MARK], 1);
}

static void is_released(void)
{
    is("frozen nibble, released", record[R_FROZEN], 0);
    is("its mark, released", record[R_FROZEN_MARK], 0);
}

/* Timer0's counter is $9C and its load $51; the next clock counts. */
static void counting(void)
{
    fresh();
    memory[0x002] = 6;
    set_two(R_T0_PRESCALER, 1);
    record[R_T0_COUNTER] = 0x9C;
    record[R_T0_LOAD] = 0x51;
    record[R_AC] = 3;
}

/* The form at address 0 reaches the cell, by its name or through the pointer. */
static void put_form(enum mnemonic mnemonic, unsigned cell, bool through_pointer)
{
    if (through_pointer)
        point_at(cell);
    put(0, made(mnemonic, through_pointer ? 0x00F : cell, 3));
}

static void form_on_high_half(const struct form *form, bool through_pointer, bool frozen_before)
{
    counting();
    if (frozen_before)
        set_frozen(6);
    put_form(form->mnemonic, 0x005, through_pointer);
    events(CYCLE, 1);
    is("AC by the live high nibble", record[R_AC], form->of_9);
    if (form->writes) {
        is_released();
        is("load", record[R_T0_LOAD], form->of_9 << 4 | 1);
        is("counter", record[R_T0_COUNTER], (form->of_9 << 4 | 1) + 1);
    } else {
        is_frozen(0xC);
        is("load", record[R_T0_LOAD], 0x51);
        is("counter", record[R_T0_COUNTER], 0x9D);
    }
}

static void form_on_low_half(const struct form *form, bool through_pointer, bool frozen_before)
{
    uint8_t result = frozen_before ? form->of_6 : form->of_12;

    counting();
    if (frozen_before)
        set_frozen(6);
    put_form(form->mnemonic, 0x004, through_pointer);
    events(CYCLE, 1);
    is("AC by the low nibble", record[R_AC], result);
    if (frozen_before && !form->reads)
        is_frozen(6);
    else
        is_released();
    is("load", record[R_T0_LOAD], form->writes ? 0x50 | result : 0x51);
    is("counter", record[R_T0_COUNTER], 0x9D);
}

static void every_form_on_the_halves(void)
{
    for (int at = 0; at < FORMS; at++)
        for (int kind = 0; kind < 4; kind++) {
            from("02, P2: reading $005 freezes the low nibble, also where one is frozen; writing it releases");
            form_on_high_half(&forms[at], kind & 1, kind & 2);
            from("02, P2: reading $004 gives the frozen nibble and releases it, else reads live; writing it does not");
            form_on_low_half(&forms[at], kind & 1, kind & 2);
        }
}

static void one_after_the_other(void)
{
    from("02, P2: between the two reads the counter can carry");
    counting();
    record[R_T0_COUNTER] = 0x3F;
    put(0, made(LDA, 0x005, 0));
    put(1, made(LDA, 0x004, 0));
    put(2, made(NOP, 0, 0));
    put(3, made(LDA, 0x004, 0));
    events(CYCLE, 1);
    is("high nibble", record[R_AC], 3);
    is_frozen(15);
    is("the counter carries", record[R_T0_COUNTER], 0x40);
    events(CYCLE, 1);
    is("low nibble", record[R_AC], 15);
    is_released();
    events(CYCLE, 2);
    is("live again", record[R_AC], 1);
    is_released();

    from("02, P2: the reads may lie far apart, and the counter may come round");
    counting();
    record[R_T0_COUNTER] = 0xF8;
    put(0, made(LDA, 0x005, 0));
    put(0x200, made(LDA, 0x004, 0));
    events(CYCLE, 0x200);
    is("high nibble", record[R_AC], 15);
    is("IRQT0", memory[0x001], 4);
    is_frozen(8);
    events(CYCLE, 1);
    is("low nibble", record[R_AC], 8);
    is_released();

    from("02, P2: a nibble 0 can be frozen");
    counting();
    record[R_T0_COUNTER] = 0x30;
    put(0, made(LDA, 0x005, 0));
    put(1, made(LDA, 0x004, 0));
    events(CYCLE, 1);
    is_frozen(0);
    is("counter", record[R_T0_COUNTER], 0x31);
    events(CYCLE, 1);
    is("low nibble", record[R_AC], 0);
    is_released();

    from("02, P2: the second read of $005 freezes anew");
    counting();
    put(0, made(LDA, 0x005, 0));
    put(1, made(NOP, 0, 0));
    put(2, made(ADI, 0x05, 0));
    put(3, made(LDA, 0x004, 0));
    events(CYCLE, 2);
    is_frozen(0xC);
    events(CYCLE, 1);
    is_frozen(0xD);
    events(CYCLE, 1);
    is("low nibble", record[R_AC], 0xD);

    from("02, P2: a write of $005 between the two reads releases, and $004 reads live");
    counting();
    put(0, made(LDA, 0x005, 0));
    put(1, made(LDI, 0x05, 7));
    put(2, made(LDA, 0x004, 0));
    events(CYCLE, 2);
    is_released();
    is("counter", record[R_T0_COUNTER], 0x71);
    events(CYCLE, 1);
    is("low nibble", record[R_AC], 1);

    from("02, P2: a write of $004 between the two reads does not release");
    counting();
    put(0, made(LDA, 0x005, 0));
    put(1, made(LDI, 0x04, 7));
    put(2, made(LDA, 0x004, 0));
    events(CYCLE, 2);
    is("load", record[R_T0_LOAD], 0x57);
    is_frozen(0xC);
    events(CYCLE, 1);
    is("low nibble", record[R_AC], 0xC);
}

static void what_leaves_the_frozen_nibble(void)
{
    static const uint8_t others[] = {BASE_PULSE, WATCHDOG_PULSE, SOUND_CLOCK, PIN_A | 1, PIN_B | 1, PIN_C | 1,
                                     PIN_D | 1, PIN_A, PIN_B, PIN_C, PIN_D};
    int touched = 0;

    from("02, P2: no read or write of another cell freezes or releases");
    for (unsigned address = 0; address < 1024; address++)
        for (int kind = 0; kind < 4; kind++) {
            uint8_t nibble = kind & 2 ? 6 : 0, mark = kind & 2 ? 1 : 0;

            counting();
            record[R_FROZEN] = nibble;
            record[R_FROZEN_MARK] = mark;
            put(0, made(kind & 1 ? STA : LDA, address, 0));
            events(CYCLE, 1);
            touched += address != 0x004 && address != 0x005
                       && (record[R_FROZEN] != nibble || record[R_FROZEN_MARK] != mark);
        }
    is("times that one does", touched, 0);

    from("02, P2: an overflow does not release");
    for (uint8_t reload = 0; reload < 2; reload++) {
        counting();
        set_frozen(6);
        memory[0x002] = reload << 3 | 6;
        record[R_T0_COUNTER] = 255;
        events(CYCLE, 1);
        is("counter", record[R_T0_COUNTER], reload ? 0x51 : 0);
        is("IRQT0", memory[0x001], 4);
        is_frozen(6);
        memory[0x001] = 0;
        memory[0x002] |= 7;
        set_two(R_T0_PRESCALER, 0);
        record[R_T0_COUNTER] = 255;
        record[R_PIN_A] = 1;
        events(PIN_A, 1);
        is("IRQT0 by the pin", memory[0x001] & 4, 4);
        is_frozen(6);
    }

    from("02, P2: HALT and STOP do not release, nor a cycle asleep; it reads nothing");
    for (int stop = 0; stop < 2; stop++) {
        counting();
        set_frozen(6);
        put(0, made(stop ? STOP : HALT, 0, 0));
        put(1, made(LDA, 0x005, 0));
        events(CYCLE, 1);
        is("mode", record[R_MODE], stop ? IN_STOP : IN_HALT);
        is_frozen(6);
        events(CYCLE, 5);
        is_frozen(6);
        put(1, made(LDA, 0x004, 0));
        events(CYCLE, 5);
        is_frozen(6);
        from("02, P2: nor a wake");
        memory[0x000] = 1;
        memory[0x001] = 1;
        events(CYCLE, 1);
        is("vector", two(R_PC), 4);
        is_frozen(6);
    }

    from("02, P2: an interrupt does not release, and the word it stands in front of reads nothing");
    counting();
    set_frozen(6);
    put(0, made(LDA, 0x004, 0));
    memory[0x000] = 4;
    memory[0x001] = 4;
    events(CYCLE, 1);
    is("vector", two(R_PC), 2);
    is_frozen(6);
    put(2, made(RTNI, 0, 0));
    events(CYCLE, 1);
    is_frozen(6);
    events(CYCLE, 1);
    is("low nibble after the return", record[R_AC], 6);
    is_released();

    from("02, P2: the frozen nibble is no matter of other events");
    counting();
    set_frozen(6);
    for (size_t at = 0; at < sizeof others; at++) {
        events(others[at], 1);
        is_frozen(6);
    }
    record[R_PENDING] = 1;
    events(CYCLE, 1);
    is("the read has landed", record[R_PENDING], 0);
    is_frozen(6);

    from("02, P2: what is frozen moves neither counter nor load");
    counting();
    set_frozen(6);
    events(CYCLE, 4);
    is("counter", record[R_T0_COUNTER], 0x9E);
    is("load", record[R_T0_LOAD], 0x51);
}

static void resets_release(void)
{
    from("02, P2: a reset releases");
    counting();
    set_frozen(6);
    events(RESET_PIN, 1);
    is_released();
    put(0, made(LDA, 0x004, 0));
    record[R_T0_COUNTER] = 0x12;
    events(CYCLE, 1);
    is("live after the pin reset", record[R_AC], 2);
    fresh_with(1);
    set_frozen(0);
    set_two(R_WATCHDOG, 2);
    events(WATCHDOG_PULSE, 1);
    is_frozen(0);
    events(WATCHDOG_PULSE, 1);
    is("WDF", memory[0x01E], 8);
    is_released();
}

static void halves(void)
{
    every_form_on_the_halves();
    one_after_the_other();
    what_leaves_the_frozen_nibble();
    resets_release();
}

/* ---- Decimal adjust ---- */

/* What each nibble of the cell becomes, and CY with it (02, P6). */
static const struct {
    enum mnemonic mnemonic;
    uint8_t cy, then[16], then_cy[16];
} adjusted[] = {
    {DAA, 0, {0, 1, 2, 3, 4, 5, 6, 7, 8, 9, 0, 1, 2, 3, 4, 5}, {0, 0, 0, 0, 0, 0, 0, 0, 0, 0, 1, 1, 1, 1, 1, 1}},
    {DAA, 1, {6, 7, 8, 9, 10, 11, 12, 13, 14, 15, 0, 1, 2, 3, 4, 5}, {1, 1, 1, 1, 1, 1, 1, 1, 1, 1, 1, 1, 1, 1, 1, 1}},
    {DAS, 0, {10, 11, 12, 13, 14, 15, 0, 1, 2, 3, 4, 5, 6, 7, 8, 9}, {0, 0, 0, 0, 0, 0, 0, 0, 0, 0, 0, 0, 0, 0, 0, 0}},
    {DAS, 1, {0, 1, 2, 3, 4, 5, 6, 7, 8, 9, 10, 11, 12, 13, 14, 15}, {1, 1, 1, 1, 1, 1, 1, 1, 1, 1, 1, 1, 1, 1, 1, 1}},
};
enum { ADJUSTED = sizeof adjusted / sizeof adjusted[0] };

static void adjust(enum mnemonic mnemonic, unsigned named, uint8_t ac, uint8_t cy)
{
    put(0, made(mnemonic, named, 0));
    set_two(R_PC, 0);
    record[R_AC] = ac;
    record[R_CY] = cy;
    events(CYCLE, 1);
}

static void gives(uint8_t ac, uint8_t cy)
{
    is("AC", record[R_AC], ac);
    is("CY", record[R_CY], cy);
}

static void every_nibble_and_accumulator(void)
{
    uint8_t before[1024];

    from("02, P6: the cell is adjusted, AC before plays no part, both get the result");
    for (int at = 0; at < ADJUSTED; at++)
        for (uint8_t nibble = 0; nibble < 16; nibble++)
            for (uint8_t ac = 0; ac < 16; ac++) {
                int others = 0;

                fresh();
                memory[0x07F] = nibble;
                memcpy(before, memory, sizeof before);
                adjust(adjusted[at].mnemonic, 0x7F, ac, adjusted[at].cy);
                gives(adjusted[at].then[nibble], adjusted[at].then_cy[nibble]);
                is("the cell", memory[0x07F], adjusted[at].then[nibble]);
                for (unsigned address = 0; address < 1024; address++)
                    others += address != 0x07F && memory[address] != before[address];
                is("other cells changed", others, 0);
            }
}

/* Digits added and subtracted in the cell, with AC used for something else before they are adjusted. */
static void digits_in_the_cell(void)
{
    static const struct {
        const char *what;
        enum mnemonic mnemonic, adjusting;
        uint8_t cell, ac, then, then_cy;
    } sums[] = {
        {"3 + 4", ADDM, DAA, 3, 4, 7, 0},    {"7 + 8", ADDM, DAA, 7, 8, 5, 1},    {"9 + 8", ADDM, DAA, 9, 8, 7, 1},
        {"9 + 9", ADDM, DAA, 9, 9, 8, 1},    {"5 - 3", SUBM, DAS, 5, 3, 2, 1},    {"3 - 5", SUBM, DAS, 3, 5, 8, 0},
        {"0 - 9", SUBM, DAS, 0, 9, 1, 0},    {"9 - 9", SUBM, DAS, 9, 9, 0, 1},
    };
    static const uint8_t cycles[6] = {0};

    from("02, P6: a program that adds or subtracts digits in the cell");
    for (size_t at = 0; at < sizeof sums / sizeof sums[0]; at++)
        for (uint8_t other = 0; other < 16; other++) {
            fresh();
            put(0, made(NOP, 0, 0));
            put(1, made(sums[at].mnemonic, 0x020, 0));
            put(2, made(LDA, 0x021, 0));
            put(3, made(sums[at].adjusting, 0x20, 0));
            put(4, made(STA, 0x022, 0));
            memory[0x020] = sums[at].cell;
            memory[0x021] = other;
            record[R_AC] = sums[at].ac;
            is("answer", run(cycles, sizeof cycles, NO_STOP), 0);
            is(sums[at].what, memory[0x020], sums[at].then);
            gives(sums[at].then, sums[at].then_cy);
            is("AC stored afterwards", memory[0x022], sums[at].then);
            is("the cell that AC came from", memory[0x021], other);
        }
}

static void decimal_on_port(unsigned port, bool through_pointer)
{
    static const struct {
        const char *what;
        enum mnemonic mnemonic;
        uint8_t latch, control, pins, ac, cy, then, then_cy;
    } cases[] = {
        {"latch 1100, control 1010, pins 0101: DAA of 13", DAA, 0xC, 0xA, 0x5, 4, 0, 3, 1},
        {"latch 0011, the same: DAS of 7", DAS, 0x3, 0xA, 0x5, 4, 0, 1, 0},
        {"latch 0001, the same: DAS of 5 with CY, not adjusted and stored", DAS, 0x1, 0xA, 0x5, 4, 1, 5, 1},
        {"DAA of the pins 2, not adjusted and stored", DAA, 11, 0, 2, 15, 0, 2, 0},
        {"DAA of the latch 11", DAA, 11, 15, 2, 2, 0, 1, 1},
    };

    for (size_t at = 0; at < sizeof cases / sizeof cases[0]; at++) {
        fresh();
        point_at(0x008 + port);
        memory[0x008 + port] = cases[at].latch;
        memory[0x016 + port] = cases[at].control;
        record[R_PIN_A + port] = cases[at].pins;
        adjust(cases[at].mnemonic, through_pointer ? 0x0F : 0x08 + port, cases[at].ac, cases[at].cy);
        gives(cases[at].then, cases[at].then_cy);
        is(cases[at].what, memory[0x008 + port], cases[at].then);
        is("pins", record[R_PIN_A + port], cases[at].pins);
    }
}

static void decimal_on_ports(void)
{
    from("02, P6; 01, HOUSE: a port bit is adjusted as it reads, the result goes to the latch");
    for (unsigned port = 0; port < 4; port++) {
        decimal_on_port(port, false);
        decimal_on_port(port, true);
    }
}

/* Timer0's counter is $95 and its load $51; the next clock counts. */
static void decimal_on_the_halves(void)
{
    enum { NONE = 16 };
    static const struct {
        const char *what;
        enum mnemonic mnemonic;
        uint8_t named, frozen, ac, cy, then, then_cy, load, counter;
    } cases[] = {
        {"$004, DAA of the frozen 12", DAA, 0x04, 12, 0, 0, 2, 1, 0x52, 0x96},
        {"$004, DAA of the live 5, not adjusted", DAA, 0x04, NONE, 12, 0, 5, 0, 0x55, 0x96},
        {"$004, DAS of the frozen 12 with CY, not adjusted", DAS, 0x04, 12, 5, 1, 12, 1, 0x5C, 0x96},
        {"$004, DAS of a frozen 0", DAS, 0x04, 0, 5, 0, 10, 0, 0x5A, 0x96},
        {"$004, DAS of the live 5", DAS, 0x04, NONE, 12, 0, 15, 0, 0x5F, 0x96},
        {"$005, DAA of 9 with CY", DAA, 0x05, NONE, 0, 1, 15, 1, 0xF1, 0xF2},
        {"$005, DAA of 9 with CY, one frozen", DAA, 0x05, 6, 0, 1, 15, 1, 0xF1, 0xF2},
        {"$005, DAA of 9, not adjusted", DAA, 0x05, NONE, 12, 0, 9, 0, 0x91, 0x92},
        {"$005, DAA of 9, not adjusted, one frozen", DAA, 0x05, 6, 12, 0, 9, 0, 0x91, 0x92},
        {"$005, DAS of 9", DAS, 0x05, NONE, 6, 0, 3, 0, 0x31, 0x32},
        {"$005, DAS of 9, one frozen", DAS, 0x05, 6, 6, 0, 3, 0, 0x31, 0x32},
        {"$005, DAS of 9 with CY, not adjusted", DAS, 0x05, NONE, 6, 1, 9, 1, 0x91, 0x92},
        {"$005, DAS of 9 with CY, not adjusted, one frozen", DAS, 0x05, 6, 6, 1, 9, 1, 0x91, 0x92},
    };

    from("02, P6 and P2: $004 is adjusted as it reads, frozen or live, $005 as its live nibble; nothing stays frozen");
    for (size_t at = 0; at < sizeof cases / sizeof cases[0]; at++) {
        counting();
        record[R_T0_COUNTER] = 0x95;
        if (cases[at].frozen != NONE)
            set_frozen(cases[at].frozen);
        adjust(cases[at].mnemonic, cases[at].named, cases[at].ac, cases[at].cy);
        gives(cases[at].then, cases[at].then_cy);
        is(cases[at].what, record[R_T0_LOAD], cases[at].load);
        is("counter, clocked", record[R_T0_COUNTER], cases[at].counter);
        is_released();
    }
}

static void decimal_on_registers_with_effects(void)
{
    from("02, P6; 01: $01E keeps bit 3, and restarts the watchdog at the period that then stands");
    fresh();
    memory[0x01E] = 0xB;
    set_two(R_WATCHDOG, 5);
    adjust(DAA, 0x1E, 4, 0);
    gives(1, 1);
    is("$01E, DAA of 11", memory[0x01E], 0x9);
    is("watchdog", two(R_WATCHDOG), 1024);
    fresh_with(1);
    memory[0x01E] = 3;
    set_two(R_WATCHDOG, 5);
    adjust(DAA, 0x1E, 15, 0);
    gives(3, 0);
    is("$01E, not adjusted", memory[0x01E], 3);
    is("watchdog", two(R_WATCHDOG), 128);
    fresh();
    point_at(0x01E);
    memory[0x01E] = 0xD;
    set_two(R_WATCHDOG, 5);
    adjust(DAS, 0x0F, 0, 1);
    gives(13, 1);
    is("$01E through $00F, not adjusted", memory[0x01E], 0xD);
    is("watchdog", two(R_WATCHDOG), 16);
    adjust(DAS, 0x0F, 0, 0);
    gives(7, 0);
    is("$01E through $00F, DAS of 13", memory[0x01E], 0xF);
    is("watchdog", two(R_WATCHDOG), 1);

    from("02, P6: stored also where nothing is adjusted; a write of $002 clears the prescaler");
    for (int subtract = 0; subtract < 2; subtract++) {
        fresh();
        memory[0x002] = 6;
        set_two(R_T0_PRESCALER, 1);
        record[R_T0_COUNTER] = 0x40;
        adjust(subtract ? DAS : DAA, 0x02, 13, subtract);
        gives(6, subtract);
        is("$002", memory[0x002], 6);
        is("prescaler, cleared and clocked", two(R_T0_PRESCALER), 1);
        is("counter", record[R_T0_COUNTER], 0x40);
    }

    from("02, P6: stored also where nothing is adjusted; a write of $003 clears its prescaler, one that disables both");
    for (int subtract = 0; subtract < 2; subtract++) {
        fresh();
        memory[0x003] = 9;
        record[R_BASE_PRESCALER] = 2;
        record[R_BASE_COUNTER] = 0x40;
        adjust(subtract ? DAS : DAA, 0x03, 3, subtract);
        gives(9, subtract);
        is("$003", memory[0x003], 9);
        is("base prescaler", record[R_BASE_PRESCALER], 0);
        is("base counter", record[R_BASE_COUNTER], 0x40);
        record[R_BASE_PRESCALER] = 2;
        adjust(subtract ? DAS : DAA, 0x03, 9, !subtract);
        gives(subtract ? 3 : 15, !subtract);
        is("$003", memory[0x003], subtract ? 3 : 15);
        is("base prescaler", record[R_BASE_PRESCALER], 0);
        is("base counter", record[R_BASE_COUNTER], 0);
    }

    from("02, P6: stored also where nothing is adjusted; a write of $01A makes a read pending");
    for (int subtract = 0; subtract < 2; subtract++) {
        fresh();
        memory[0x01A] = 4;
        memory[0x01B] = 5;
        memory[0x01C] = 6;
        adjust(subtract ? DAS : DAA, 0x1A, 13, subtract);
        gives(4, subtract);
        is("pending", record[R_PENDING], 1);
        is("its address", two(R_PENDING_ADDRESS), 0x654);
    }
}

static void decimal_on_cells_that_hold_less(void)
{
    static const uint16_t hold_nothing[] = {0x006, 0x00F, 0x01F, 0x170, 0x1FF, 0x2AB, 0x349, 0x357, 0x36E, 0x36F, 0x378,
                                            0x3FF};

    from("02, P6; 01: $370-$377 read 0 and take the result");
    for (unsigned address = 0x370; address <= 0x377; address++)
        for (int at = 0; at < ADJUSTED; at++) {
            fresh();
            point_at(address);
            memory[address] = 9;
            adjust(adjusted[at].mnemonic, 0x0F, 13, adjusted[at].cy);
            gives(adjusted[at].then[0], adjusted[at].then_cy[0]);
            is("the sound cell", memory[address], adjusted[at].then[0]);
        }

    from("02, P6; 01: a cell that holds nothing reads 0; AC gets the result, the cell stays 0");
    for (size_t number = 0; number < sizeof hold_nothing / sizeof hold_nothing[0]; number++)
        for (int at = 0; at < ADJUSTED; at++) {
            unsigned address = hold_nothing[number];

            fresh();
            point_at(address);
            adjust(adjusted[at].mnemonic, at & 1 && address < 0x080 ? address : 0x0F, 13, adjusted[at].cy);
            gives(adjusted[at].then[0], adjusted[at].then_cy[0]);
            is("the cell", memory[address], 0);
        }

    from("02, P6; reading 10: AC gets the full result, the cell what it can hold");
    fresh();
    memory[0x007] = 5;
    adjust(DAS, 0x07, 1, 0);
    gives(15, 0);
    is("$007 of 1111", memory[0x007], 7);
    adjust(DAA, 0x07, 15, 1);
    gives(13, 1);
    is("$007 of 1101", memory[0x007], 5);
    memory[0x014] = 2;
    adjust(DAS, 0x14, 1, 0);
    gives(12, 0);
    is("$014 of 1100", memory[0x014], 8);
    fresh_with(2); /* BD0 = 1, BD1 = 0 */
    memory[0x00C] = 9;
    adjust(DAS, 0x0C, 12, 0);
    gives(3, 0);
    is("$00C keeps the bonding bits", memory[0x00C], 1);
    memory[0x00C] = 13;
    adjust(DAA, 0x0C, 12, 1);
    gives(3, 1);
    is("$00C keeps the bonding bits", memory[0x00C], 1);
}

static void decimal_through_the_pointer(void)
{
    static const uint16_t cells[] = {0x020, 0x07F, 0x080, 0x08F, 0x16F, 0x300, 0x348, 0x358, 0x36D};

    from("02, P6; 01, $00F: the cell that the pointer stands at");
    for (size_t at = 0; at < sizeof cells / sizeof cells[0]; at++) {
        fresh();
        point_at(cells[at]);
        memory[cells[at]] = 11;
        adjust(DAA, 0x0F, 2, 0);
        gives(1, 1);
        is("DAA of 11", memory[cells[at]], 1);
        memory[cells[at]] = 8;
        adjust(DAA, 0x0F, 12, 0);
        gives(8, 0);
        is("DAA of 8, not adjusted", memory[cells[at]], 8);
        adjust(DAS, 0x0F, 12, 0);
        gives(2, 0);
        is("DAS of 8", memory[cells[at]], 2);
        adjust(DAS, 0x0F, 12, 1);
        gives(2, 1);
        is("DAS of 2 with CY, not adjusted", memory[cells[at]], 2);
    }

    from("02, P6; 01, $00F: the pointer is taken before the write");
    fresh();
    point_at(0x010);
    adjust(DAS, 0x0F, 3, 0);
    gives(10, 0);
    is("DPL", memory[0x010], 10);
    is("$01A", memory[0x01A], 0);
    is("no read is asked for", record[R_PENDING], 0);
    fresh();
    point_at(0x011);
    adjust(DAS, 0x0F, 3, 0);
    gives(11, 0);
    is("DPM, of 1011", memory[0x011], 3);
}

static void decimal_adjust(void)
{
    every_nibble_and_accumulator();
    digits_in_the_cell();
    decimal_on_ports();
    decimal_on_the_halves();
    decimal_on_registers_with_effects();
    decimal_on_cells_that_hold_less();
    decimal_through_the_pointer();
}

/* ---- Runs ---- */

static void runs(void)
{
    static const uint8_t cycles[10] = {0};
    static const uint8_t mixed[] = {CYCLE, WATCHDOG_PULSE, CYCLE, PIN_B | 1, CYCLE};
    static const uint8_t pulse_then_cycle[] = {WATCHDOG_PULSE, CYCLE};
    static const uint8_t unknown_late[] = {CYCLE, CYCLE, 0x50};
    uint8_t record_before[45];

    from("01, a run stops at the script's end");
    fresh();
    is("answer", run(cycles, 10, NO_STOP), 0);
    is("reason", reason, 2);
    is("events", (long long)done_events, 10);
    is("value", (long long)told, 0);
    is("PC", two(R_PC), 10);

    from("reading 17: an empty script");
    fresh();
    is("answer", run(cycles, 0, 0), 0);
    is("reason", reason, 2);
    is("events", (long long)done_events, 0);

    from("01, a run stops after the first cycle that leaves PC at the address");
    fresh();
    is("answer", run(cycles, 10, 4), 0);
    is("reason", reason, 0);
    is("events", (long long)done_events, 4);
    is("PC", two(R_PC), 4);
    fresh();
    is("not before the first event", run(cycles, 10, 0), 0);
    is("reason", reason, 2);

    from("01, the earlier named if two hold");
    fresh();
    is("answer", run(cycles, 4, 4), 0);
    is("address before script's end", reason, 0);
    is("events", (long long)done_events, 4);
    fresh();
    put(4, 0xC800);
    is("answer", run(cycles, 10, 4), 0);
    is("address before unlisted word", reason, 0);

    from("01, 4096 and up: none");
    fresh();
    is("answer", run(cycles, 10, 0xFFFFFFFF), 0);
    is("reason", reason, 2);
    is("answer", run(cycles, 10, 0x100C), 0);
    is("reason", reason, 2);

    from("01, What comes back, 6; reading 16");
    fresh();
    put(2, made(LDI, 0x20, 7));
    put(3, 0xF800);
    is("answer", run(cycles, 10, NO_STOP), 6);
    is("reason", reason, 1);
    is("events", (long long)done_events, 3);
    is("address", (long long)told, 3);
    is("PC", two(R_PC), 3);
    is("the state after the events before it", memory[0x020], 7);
    is("prescaler", two(R_T0_PRESCALER), 3);
    fresh();
    put(0, 0xF800);
    record[R_PENDING] = 1;
    set_two(R_PENDING_ADDRESS, 9);
    memcpy(record_before, record, sizeof record);
    is("at once", run(cycles, 10, NO_STOP), 6);
    is("events", (long long)done_events, 0);
    is("record changed", memcmp(record, record_before, sizeof record) != 0, 0);

    from("reading 17: a script that ends in front of an unlisted word");
    fresh();
    put(3, 0xF800);
    is("answer", run(cycles, 3, NO_STOP), 0);
    is("reason", reason, 2);
    from("reading 17: only a cycle that would execute the word");
    fresh();
    put(0, 0xF800);
    record[R_MODE] = IN_HALT;
    is("asleep", run(cycles, 3, NO_STOP), 0);
    fresh();
    put(0, 0xF800);
    is("no cycle", run(mixed + 1, 1, NO_STOP), 0);

    from("reading 18: also a cycle asleep, never another event");
    fresh();
    record[R_MODE] = IN_STOP;
    set_two(R_PC, 5);
    is("answer", run(cycles, 3, 5), 0);
    is("reason", reason, 0);
    is("events", (long long)done_events, 1);
    fresh_with(1);
    set_two(R_PC, 5);
    set_two(R_WATCHDOG, 1);
    is("answer", run(pulse_then_cycle, 2, 0), 0);
    is("the reset to $000 is not looked at", reason, 2);
    is("PC", two(R_PC), 1);
    fresh();
    memory[0x000] = 1;
    memory[0x001] = 1;
    is("answer", run(cycles, 3, 4), 0);
    is("an interrupt's cycle is", reason, 0);
    is("events", (long long)done_events, 1);

    from("01, a run counts every event");
    fresh();
    is("answer", run(mixed, 5, 3), 0);
    is("reason", reason, 0);
    is("events", (long long)done_events, 5);
    is("pins B", record[R_PIN_B], 1);

    from("reading 19: 5 over the whole script before anything moves");
    fresh();
    put(1, 0xF800);
    memcpy(record_before, record, sizeof record);
    is("answer", run(unknown_late, 3, 1), 5);
    is("place", (long long)told, 2);
    is("record changed", memcmp(record, record_before, sizeof record) != 0, 0);
    is("reason is left", reason, 99);
    is("events are left", (long long)done_events, 99);
}

/* ---- Refusals ---- */

/* Answers what a step and a run make of the desk, which must be the same, and that neither changes a lent byte. */
static uint32_t refused_alike(void)
{
    static const uint8_t one_cycle[1] = {CYCLE};
    uint8_t memory_before[1024];
    uint8_t record_before[45];
    uint32_t by_step, by_run;
    uint64_t told_by_step;

    memcpy(memory_before, memory, sizeof memory);
    memcpy(record_before, record, sizeof record);
    by_step = step(CYCLE);
    told_by_step = told;
    is("memory changed", by_step != 0 && memcmp(memory, memory_before, sizeof memory) != 0, 0);
    is("record changed", by_step != 0 && memcmp(record, record_before, sizeof record) != 0, 0);
    memcpy(memory, memory_before, sizeof memory);
    memcpy(record, record_before, sizeof record);
    by_run = run(one_cycle, 1, NO_STOP);
    is("a run's refusal", by_run, by_step);
    is("a run's value", (long long)told, (long long)told_by_step);
    is("memory changed", by_run != 0 && memcmp(memory, memory_before, sizeof memory) != 0, 0);
    is("record changed", by_run != 0 && memcmp(record, record_before, sizeof record) != 0, 0);
    memcpy(memory, memory_before, sizeof memory);
    memcpy(record, record_before, sizeof record);
    return by_step;
}

static void memory_refusals(void)
{
    static const struct {
        unsigned address;
        uint8_t highest; /* all the bits the cell may hold */
    } cells[] = {
        {0x000, 15}, {0x001, 15}, {0x002, 15}, {0x003, 15}, {0x004, 0},  {0x005, 0},  {0x006, 0},  {0x007, 7},
        {0x008, 15}, {0x00B, 15}, {0x00D, 15}, {0x00E, 15}, {0x00F, 0},  {0x010, 15}, {0x011, 7},  {0x012, 7},
        {0x013, 15}, {0x014, 11}, {0x015, 15}, {0x016, 15}, {0x019, 15}, {0x01A, 15}, {0x01D, 15}, {0x01F, 0},
        {0x020, 15}, {0x16F, 15}, {0x170, 0},  {0x2FF, 0},  {0x300, 15}, {0x348, 15}, {0x349, 0},  {0x357, 0},
        {0x358, 15}, {0x36D, 15}, {0x36E, 0},  {0x36F, 0},  {0x370, 15}, {0x377, 15}, {0x378, 0},  {0x3FF, 0},
    };

    from("01, What is lent, Memory; What comes back, 3");
    for (size_t at = 0; at < sizeof cells / sizeof cells[0]; at++) {
        int misjudged = 0;

        for (unsigned byte = 0; byte < 256; byte++) {
            bool good = (byte & ~(unsigned)cells[at].highest) == 0;

            fresh();
            memory[cells[at].address] = (uint8_t)byte;
            misjudged += step(PIN_D) != (good ? 0 : 3) || told != (good ? 0 : cells[at].address);
        }
        is("bytes misjudged at a cell", misjudged, 0);
    }
    fresh();
    memory[0x3FF] = 1;
    memory[0x170] = 1;
    memory[0x200] = 1;
    is("several", refused_alike(), 3);
    is("the lowest", (long long)told, 0x170);
    from("01, What is lent: $01E may hold WDF");
    fresh();
    memory[0x01E] = 8;
    is("a step", step(CYCLE), 0);
}

static void record_refusals(void)
{
    static const struct {
        const char *what;
        unsigned cell; /* a cell set first; 0x3FF and 0 for none */
        uint8_t held;
        int at;
        bool wide;
        unsigned good, bad; /* the field's highest (or lowest) good value and the first bad one */
    } cases[] = {
        {"PC", 0x3FF, 0, R_PC, true, 4095, 4096},
        {"AC", 0x3FF, 0, R_AC, false, 15, 16},
        {"CY", 0x3FF, 0, R_CY, false, 1, 2},
        {"mode", 0x3FF, 0, R_MODE, false, 2, 3},
        {"newest stack entry", 0x3FF, 0, R_STACK, true, 8191, 8192},
        {"oldest stack entry", 0x3FF, 0, R_STACK + 14, true, 8191, 8192},
        {"Timer0 prescaler /2048", 0x002, 0, R_T0_PRESCALER, true, 2047, 2048},
        {"Timer0 prescaler /512", 0x002, 1, R_T0_PRESCALER, true, 511, 512},
        {"Timer0 prescaler /128", 0x002, 2, R_T0_PRESCALER, true, 127, 128},
        {"Timer0 prescaler /32", 0x002, 3, R_T0_PRESCALER, true, 31, 32},
        {"Timer0 prescaler /8", 0x002, 4, R_T0_PRESCALER, true, 7, 8},
        {"Timer0 prescaler /4", 0x002, 0xD, R_T0_PRESCALER, true, 3, 4},
        {"Timer0 prescaler /2", 0x002, 0xE, R_T0_PRESCALER, true, 1, 2},
        {"Timer0 prescaler, pin", 0x002, 0xF, R_T0_PRESCALER, true, 0, 1},
        {"base prescaler /1", 0x003, 0x8, R_BASE_PRESCALER, false, 0, 1},
        {"base prescaler /4", 0x003, 0x9, R_BASE_PRESCALER, false, 3, 4},
        {"base prescaler /8", 0x003, 0xA, R_BASE_PRESCALER, false, 7, 8},
        {"base prescaler /16", 0x003, 0xB, R_BASE_PRESCALER, false, 15, 16},
        {"base prescaler, off", 0x003, 0x3, R_BASE_PRESCALER, false, 0, 1},
        {"base prescaler, off by bit 2", 0x003, 0xF, R_BASE_PRESCALER, false, 0, 1},
        {"base counter, off", 0x003, 0x3, R_BASE_COUNTER, false, 0, 1},
        {"base counter, off by bit 2", 0x003, 0xC, R_BASE_COUNTER, false, 0, 255},
        {"watchdog at least", 0x3FF, 0, R_WATCHDOG, true, 1, 0},
        {"watchdog at most 4096", 0x01E, 8, R_WATCHDOG, true, 4096, 4097},
        {"watchdog at most 1024", 0x01E, 1, R_WATCHDOG, true, 1024, 1025},
        {"watchdog at most 256", 0x01E, 2, R_WATCHDOG, true, 256, 257},
        {"watchdog at most 128", 0x01E, 3, R_WATCHDOG, true, 128, 129},
        {"watchdog at most 64", 0x01E, 4, R_WATCHDOG, true, 64, 65},
        {"watchdog at most 16", 0x01E, 0xD, R_WATCHDOG, true, 16, 17},
        {"watchdog at most 4", 0x01E, 6, R_WATCHDOG, true, 4, 5},
        {"watchdog at most 1", 0x01E, 7, R_WATCHDOG, true, 1, 2},
        {"pins A", 0x3FF, 0, R_PIN_A, false, 15, 16},
        {"pins B", 0x3FF, 0, R_PIN_B, false, 15, 16},
        {"pins C", 0x3FF, 0, R_PIN_C, false, 15, 16},
        {"pins D", 0x3FF, 0, R_PIN_D, false, 15, 16},
        {"options, bonding 0", 0x00C, 0, R_OPTIONS, false, 1, 8},
        {"options, bonding 3", 0x00C, 3, R_OPTIONS, false, 7, 8},
        {"BD0 against $00C", 0x00C, 0xD, R_OPTIONS, false, 2, 4},
        {"BD1 against $00C", 0x00C, 0xE, R_OPTIONS, false, 5, 3},
        {"pending", 0x3FF, 0, R_PENDING, false, 1, 2},
        {"pending address, none pending", 0x3FF, 0, R_PENDING_ADDRESS, true, 0, 1},
        {"count of channel 1, disabled", 0x3FF, 0, R_COUNT_1, true, 1015, 1016},
        {"count of channel 1, enabled", 0x377, 1, R_COUNT_1, true, 1015, 1016},
        {"count of channel 1, any high byte", 0x3FF, 0, R_COUNT_1, true, 1015, 0x8000},
        {"output of channel 1", 0x377, 1, R_OUTPUT_1, false, 1, 2},
        {"output of channel 1, no bit but the lowest", 0x3FF, 0, R_OUTPUT_1, false, 0, 0x80},
        {"count of channel 2, disabled", 0x3FF, 0, R_COUNT_2, true, 1015, 1016},
        {"count of channel 2, held by C2M", 0x370, 2, R_COUNT_2, true, 1015, 1016},
        {"count of channel 2, any high byte", 0x3FF, 0, R_COUNT_2, true, 1015, 0xFFFF},
        {"output of channel 2", 0x377, 2, R_OUTPUT_2, false, 1, 2},
        {"output of channel 2, no bit but the lowest", 0x3FF, 0, R_OUTPUT_2, false, 0, 0xFE},
        {"frozen nibble with mark 0", 0x3FF, 0, R_FROZEN, false, 0, 1},
        {"mark of the frozen nibble", 0x3FF, 0, R_FROZEN_MARK, false, 1, 2},
    };

    from("01, What is lent, Machine record; What comes back, 4");
    for (size_t at = 0; at < sizeof cases / sizeof cases[0]; at++) {
        for (int bad = 0; bad < 2; bad++) {
            unsigned field = bad ? cases[at].bad : cases[at].good;

            fresh();
            memory[cases[at].cell] = cases[at].held;
            if (cases[at].wide)
                set_two(cases[at].at, field);
            else
                record[cases[at].at] = (uint8_t)field;
            is(cases[at].what, refused_alike(), bad ? 4 : 0);
            is("value", (long long)told, 0);
        }
    }

    from("01, What is lent: counters and load are whole bytes");
    fresh();
    memory[0x003] = 8;
    record[R_T0_COUNTER] = 255;
    record[R_T0_LOAD] = 255;
    record[R_BASE_COUNTER] = 255;
    is("a step", refused_alike(), 0);

    from("01, What is lent: pending address is a PC");
    fresh();
    record[R_PENDING] = 1;
    set_two(R_PENDING_ADDRESS, 4095);
    is("4095", refused_alike(), 0);
    set_two(R_PENDING_ADDRESS, 4096);
    is("4096", refused_alike(), 4);

    from("02, P2: 4 for a nibble above 15, a mark above 1, a nibble other than 0 with mark 0");
    for (unsigned mark = 0; mark < 256; mark++) {
        int misjudged = 0;

        for (unsigned nibble = 0; nibble < 256; nibble++) {
            bool good = mark == 0 ? nibble == 0 : mark == 1 && nibble <= 15;

            fresh();
            record[R_FROZEN] = (uint8_t)nibble;
            record[R_FROZEN_MARK] = (uint8_t)mark;
            misjudged += step(PIN_D) != (good ? 0 : 4) || told != 0;
        }
        is("nibbles misjudged with a mark", misjudged, 0);
    }
    fresh();
    set_frozen(15);
    is("nibble 15", refused_alike(), 0);
    set_frozen(16);
    is("nibble 16", refused_alike(), 4);

    from("02, P2: the record is 45 bytes; another length is 4");
    fresh();
    is("37", second_step(program, 8192, memory, 1024, record, 37, CYCLE, &told), 4);
    is("value", (long long)told, 0);
    is("43", second_step(program, 8192, memory, 1024, record, 43, CYCLE, &told), 4);
    is("44", second_step(program, 8192, memory, 1024, record, 44, CYCLE, &told), 4);
    is("46", second_step(program, 8192, memory, 1024, record, 46, CYCLE, &told), 4);
}

static void call_refusals(void)
{
    static const uint8_t one_cycle[1] = {CYCLE};

    from("01, What comes back: lowest applicable number first");
    fresh();
    memory[0x004] = 1;
    record[R_AC] = 16;
    told = 99;
    is("1", second_step(program, 8190, memory, 1023, record, 44, 0x50, &told), 1);
    is("told in bytes", (long long)told, 8190);
    is("1 for words' number", second_step(program, 4096, memory, 1024, record, 45, CYCLE, &told), 1);
    is("told in bytes", (long long)told, 4096);
    is("2", second_step(program, 8192, memory, 1023, record, 44, 0x50, &told), 2);
    is("length", (long long)told, 1023);
    is("3", second_step(program, 8192, memory, 1024, record, 44, 0x50, &told), 3);
    is("address", (long long)told, 4);
    memory[0x004] = 0;
    is("4 by length", second_step(program, 8192, memory, 1024, record, 46, 0x50, &told), 4);
    is("4 by a field", second_step(program, 8192, memory, 1024, record, 45, 0x50, &told), 4);
    record[R_AC] = 0;
    put(0, 0xC800);
    is("5", second_step(program, 8192, memory, 1024, record, 45, 0x50, &told), 5);
    is("place", (long long)told, 0);
    is("6", refused_alike(), 6);
    is("address", (long long)told, 0);
    is("run: 1", second_run(program, 0, memory, 0, record, 0, one_cycle, 1, 0, &reason, &done_events, &told), 1);
    is("length", (long long)told, 0);
    is("run: 2", second_run(program, 8192, memory, 0, record, 0, one_cycle, 1, 0, &reason, &done_events, &told), 2);
    is("length", (long long)told, 0);
    is("run: 4", second_run(program, 8192, memory, 1024, record, 0, one_cycle, 1, 0, &reason, &done_events, &told), 4);

    from("01, Events; 02, P1: other bytes are unknown, $04 too");
    fresh();
    for (unsigned event = 0; event < 256; event++) {
        bool known = event <= 3 || event == 5 || (event >= 0x10 && event <= 0x4F);

        told = 99;
        is("an event byte", step((uint8_t)event), known ? 0 : 5);
        is("place", (long long)told, 0);
    }

    from("01, What comes back, 6: the address of the word in a step");
    fresh();
    put(0x9AB, 0xD401);
    set_two(R_PC, 0x9AB);
    record[R_PENDING] = 1;
    set_two(R_PENDING_ADDRESS, 0x777);
    is("6", refused_alike(), 6);
    is("address", (long long)told, 0x9AB);

    from("reading 20: fresh");
    memset(memory, 0xEE, sizeof memory);
    memset(record, 0xEE, sizeof record);
    is("2", second_fresh(memory, 1000, record, 44, 8, &told), 2);
    is("length", (long long)told, 1000);
    is("4", second_fresh(memory, 1024, record, 44, 8, &told), 4);
    is("value", (long long)told, 0);
    is("12", second_fresh(memory, 1024, record, 45, 8, &told), 12);
    is("options", (long long)told, 8);
    is("12", second_fresh(memory, 1024, record, 45, 0xFFFFFFFF, &told), 12);
    is("options", (long long)told, 0xFFFFFFFF);
    is("memory is left", memory[0x013], 0xEE);
    is("record is left", record[0], 0xEE);
    is("done", second_fresh(memory, 1024, record, 45, 7, &told), 0);
    is("value", (long long)told, 0);
}

/* ---- The list of writers ---- */

static unsigned words_that_change(uint16_t cell)
{
    unsigned found = 0;

    for (uint32_t word = 0; word <= 0xFFFF; word++)
        found += search_changes((uint16_t)word, cell);
    return found;
}

static void writers(void)
{
    static const uint16_t never[] = {0x4820, 0x5820, 0x6020, 0x6820, 0x77A0, 0x480F, 0x580F, 0x600F, 0x680F, 0x778F};
    uint8_t addresses[8192];
    uint64_t count = 99;

    from("reading 26: 0 added, subtracted, exclusive or, or; and with 15: never writers");
    for (size_t at = 0; at < sizeof never / sizeof never[0]; at++)
        is("a word", search_changes(never[at], 0x020), 0);

    from("01, One instruction: who writes");
    is("ADC $020", search_changes(0x0020, 0x020), 0);
    is("ADCM $020", search_changes(0x0420, 0x020), 1);
    is("LDA $020", search_changes(0x3820, 0x020), 0);
    is("STA $020", search_changes(0x3C20, 0x020), 1);
    is("STA $021", search_changes(0x3C21, 0x020), 0);
    is("SBI $20,1", search_changes(0x50A0, 0x020), 0);
    is("SBIM $20,1", search_changes(0x58A0, 0x020), 1);
    is("ANDIM $20,14", search_changes(0x7720, 0x020), 1);
    is("LDI $20,0", search_changes(0x7820, 0x020), 1);
    is("DAA $20", search_changes(0xCB20, 0x020), 1);
    is("DAS $20", search_changes(0xCD20, 0x020), 1);
    is("RTNW 2,0", search_changes(0xD020, 0x020), 0);
    is("unlisted $CB80", search_changes(0xCB80, 0x020), 0);
    is("STA $30F through $00F? no", search_changes(0x3F0F, 0x020), 0);
    is("STA $08F", search_changes(0x3C8F, 0x020), 0);
    is("DAA $0F", search_changes(0xCB0F, 0x36D), 1);
    is("DAA $6D", search_changes(0xCB6D, 0x36D), 0);

    /* Below $080: 8 memory forms, ADIM SBIM EORIM ORIM ANDIM with 15 immediates each, LDI with 16, DAA, DAS; each
       naming the cell or $00F. From $080 up the immediate forms, DAA and DAS can only name $00F. */
    from("reading 26, counted over all words");
    is("words that change $020: 2 x (8 + 75 + 16 + 2)", words_that_change(0x020), 202);
    is("words that change $07F", words_that_change(0x07F), 202);
    is("words that change $080: 16 + 91 + 2", words_that_change(0x080), 109);
    is("words that change $36D", words_that_change(0x36D), 109);

    from("01, What comes back, 8");
    fresh();
    static const struct {
        uint32_t cell;
        uint32_t answer;
    } asked[] = {
        {0x000, 8}, {0x00F, 8}, {0x01F, 8}, {0x020, 0}, {0x16F, 0}, {0x170, 8}, {0x2FF, 8}, {0x300, 0},
        {0x348, 0}, {0x349, 8}, {0x357, 8}, {0x358, 0}, {0x36D, 0}, {0x36E, 8}, {0x370, 8}, {0x3FF, 8},
        {0x400, 8}, {0x420, 8}, {0x10020, 8}, {0xFFFFFFFF, 8},
    };
    for (size_t at = 0; at < sizeof asked / sizeof asked[0]; at++) {
        is("asked", second_list(program, 8192, asked[at].cell, addresses, 0, &count, &told), asked[at].answer);
        is("value", (long long)told, asked[at].answer ? (long long)asked[at].cell : 0);
    }
    is("an empty list's count", (long long)count, 0);

    from("reading 21: list, 1 then 8 then 7; 01: room counted in bytes");
    put(0xFFF, made(STA, 0x300, 0));
    put(0x123, made(LDI, 0x0F, 0));
    memset(addresses, 0xEE, sizeof addresses);
    count = 99;
    is("1", second_list(program, 8191, 0x000, addresses, 0, &count, &told), 1);
    is("length", (long long)told, 8191);
    is("8", second_list(program, 8192, 0x000, addresses, 0, &count, &told), 8);
    is("7", second_list(program, 8192, 0x300, addresses, 3, &count, &told), 7);
    is("room needed", (long long)told, 4);
    is("count is left", (long long)count, 99);
    is("addresses are left", addresses[0], 0xEE);
    is("done", second_list(program, 8192, 0x300, addresses, 4, &count, &told), 0);
    is("count", (long long)count, 4);
    is("first", addresses[0] << 8 | addresses[1], 0x123);
    is("second", addresses[2] << 8 | addresses[3], 0xFFF);
    is("beyond", addresses[4], 0xEE);

    from("01, Instruction words: never the address of an unlisted word");
    for (unsigned address = 0; address < 4096; address++)
        put(address, address & 1 ? 0x3C20 : 0xCBA0);
    is("done", second_list(program, 8192, 0x020, addresses, sizeof addresses, &count, &told), 0);
    is("count", (long long)count, 4096);
    is("first", addresses[0] << 8 | addresses[1], 0x001);
    is("last", addresses[4094] << 8 | addresses[4095], 0xFFF);
}

/* ---- Level, picture, book ---- */

static uint32_t level_of(unsigned high, unsigned low, unsigned ground, size_t length, int32_t *level)
{
    const uint8_t body[6] = {(uint8_t)(high >> 8), (uint8_t)high, (uint8_t)(low >> 8), (uint8_t)low,
                             (uint8_t)ground, 0};

    return second_level(memory, 1024, body, length, level, &told);
}

static void levels(void)
{
    int32_t level = 99;

    from("01, Panel book: level = code - ground, from -63 to 63");
    fresh();
    memory[0x16F] = 7;
    memory[0x358] = 7;
    is("done", level_of(0x16F, 0x358, 0, 5, &level), 0);
    is("highest", level, 63);
    memory[0x16F] = 0;
    memory[0x358] = 0;
    is("done", level_of(0x16F, 0x358, 63, 5, &level), 0);
    is("lowest", level, -63);

    from("reading 21: level, 2, 3, 10, 11, 9");
    level = 99;
    memory[0x020] = 8;
    memory[0x021] = 9;
    is("9, high first", level_of(0x020, 0x021, 0, 5, &level), 9);
    is("value", (long long)told, 0);
    memory[0x020] = 7;
    is("9, low", level_of(0x020, 0x021, 0, 5, &level), 9);
    is("value", (long long)told, 1);
    is("11 before 9", level_of(0x020, 0x021, 64, 5, &level), 11);
    is("value", (long long)told, 3);
    is("equal cells", level_of(0x021, 0x021, 0, 5, &level), 11);
    is("a system register", level_of(0x01F, 0x021, 0, 5, &level), 11);
    is("a sound register", level_of(0x020, 0x370, 0, 5, &level), 11);
    is("beyond memory", level_of(0x420, 0x021, 0, 5, &level), 11);
    is("10 before 11", level_of(0x021, 0x021, 64, 4, &level), 10);
    is("value", (long long)told, 0);
    is("10 for six bytes", level_of(0x020, 0x021, 0, 6, &level), 10);
    memory[0x3FF] = 1;
    is("3 before 10", level_of(0x021, 0x021, 64, 4, &level), 3);
    is("value", (long long)told, 0x3FF);
    is("2", second_level(memory, 1023, memory, 0, &level, &told), 2);
    is("level is left", level, 99);
}

static void pictures(void)
{
    static const uint8_t wiring[9] = {0x03, 0x00, 0, 0x03, 0x48, 3, 0x03, 0x00, 0};
    static const uint8_t bad_bit[6] = {0x03, 0x00, 0, 0x03, 0x48, 4};
    static const uint8_t not_display[6] = {0x03, 0x00, 0, 0x03, 0x49, 0};
    static const uint8_t scan_cell[3] = {0x03, 0x58, 0};
    static uint8_t many[723];
    uint8_t picture[241];
    uint64_t count = 99;

    from("01, Panel book: a picture");
    fresh();
    memory[0x300] = 1;
    memory[0x348] = 8;
    memory[0x007] = 4;
    memset(picture, 0xEE, sizeof picture);
    is("done", second_picture(memory, 1024, record, 45, wiring, 9, picture, 3, &count, &told), 0);
    is("count", (long long)count, 3);
    is("first", picture[0], 1);
    is("second", picture[1], 1);
    is("an element may stand twice", picture[2], 1);
    is("beyond", picture[3], 0xEE);
    memory[0x300] = 14;
    memory[0x348] = 7;
    is("done", second_picture(memory, 1024, record, 45, wiring, 9, picture, 3, &count, &told), 0);
    is("first", picture[0], 0);
    is("second", picture[1], 0);
    from("01, Panel book: all 0 when LCDON is 0 or in STOP");
    memory[0x300] = 15;
    memory[0x007] = 3;
    picture[0] = 0xEE;
    is("done", second_picture(memory, 1024, record, 45, wiring, 9, picture, 3, &count, &told), 0);
    is("LCDON 0", picture[0], 0);
    memory[0x007] = 7;
    record[R_MODE] = IN_STOP;
    picture[0] = 0xEE;
    is("done", second_picture(memory, 1024, record, 45, wiring, 9, picture, 3, &count, &told), 0);
    is("STOP", picture[0], 0);
    record[R_MODE] = IN_HALT;
    is("done", second_picture(memory, 1024, record, 45, wiring, 9, picture, 3, &count, &told), 0);
    is("HALT shows", picture[0], 1);

    from("reading 21: picture, 2, 3, 4, 10, 11, 7");
    picture[0] = 0xEE;
    count = 99;
    is("7", second_picture(memory, 1024, record, 45, wiring, 9, picture, 2, &count, &told), 7);
    is("room needed", (long long)told, 3);
    is("count is left", (long long)count, 99);
    is("picture is left", picture[0], 0xEE);
    is("11, bit", second_picture(memory, 1024, record, 45, bad_bit, 6, picture, 0, &count, &told), 11);
    is("kind", (long long)told, 2);
    is("11, address", second_picture(memory, 1024, record, 45, not_display, 6, picture, 9, &count, &told), 11);
    is("11, scan cell", second_picture(memory, 1024, record, 45, scan_cell, 3, picture, 9, &count, &told), 11);
    is("10, not of threes", second_picture(memory, 1024, record, 45, bad_bit, 5, picture, 9, &count, &told), 10);
    is("value", (long long)told, 0);
    is("10, none", second_picture(memory, 1024, record, 45, wiring, 0, picture, 9, &count, &told), 10);
    for (int element = 0; element < 241; element++)
        many[3 * element] = 3;
    is("240 elements", second_picture(memory, 1024, record, 45, many, 720, picture, 240, &count, &told), 0);
    is("count", (long long)count, 240);
    is("10, 241 elements", second_picture(memory, 1024, record, 45, many, 723, picture, 241, &count, &told), 10);
    record[R_CY] = 2;
    is("4", second_picture(memory, 1024, record, 45, wiring, 0, picture, 9, &count, &told), 4);
    is("4 by length", second_picture(memory, 1024, record, 44, wiring, 0, picture, 9, &count, &told), 4);
    memory[0x005] = 1;
    is("3", second_picture(memory, 1024, record, 44, wiring, 0, picture, 9, &count, &told), 3);
    is("2", second_picture(memory, 1025, record, 44, wiring, 0, picture, 9, &count, &told), 2);
    is("length", (long long)told, 1025);
}

static uint64_t bodies[6]; /* offset and length of program, wiring, level */

static uint32_t read_book(const uint8_t *book, uint64_t length)
{
    return second_book_read(book, length, &bodies[0], &bodies[1], &bodies[2], &bodies[3], &bodies[4], &bodies[5],
                            &told);
}

static void books(void)
{
    /* 3; kind 1 at 16, 8,192 bytes; kind 2 at 8,208 ($2010), 6 bytes; kind 3 at 8,214 ($2016), 5 bytes. */
    static const uint8_t contents[16] = {3, 1, 0x00, 0x10, 0x20, 0x00, 2, 0x20, 0x10, 0x00, 0x06,
                                         3, 0x20, 0x16, 0x00, 0x05};
    static const uint8_t wiring[6] = {0x03, 0x01, 1, 0x03, 0x47, 2};
    static const uint8_t level[5] = {0x00, 0x20, 0x03, 0x00, 63};
    static const uint8_t bad_wiring[6] = {0x03, 0x01, 1, 0x03, 0x47, 4};
    static const uint8_t bad_level[5] = {0x00, 0x20, 0x00, 0x20, 0};
    static uint8_t book[9000], spoiled[9000];
    const uint64_t length = 16 + 8192 + 6 + 5;
    uint64_t count = 99;

    from("01, Panel book: writing");
    fresh();
    put(0, 0x1234);
    put(0xFFF, 0x5678);
    memset(book, 0xEE, sizeof book);
    is("done", second_book_write(program, 8192, wiring, 6, level, 5, book, sizeof book, &count, &told), 0);
    is("count", (long long)count, (long long)length);
    is("contents differ", memcmp(book, contents, 16) != 0, 0);
    is("program differs", memcmp(book + 16, program, 8192) != 0, 0);
    is("wiring differs", memcmp(book + 8208, wiring, 6) != 0, 0);
    is("level differs", memcmp(book + 8214, level, 5) != 0, 0);
    is("beyond", book[length], 0xEE);

    from("01, Panel book: reading");
    is("done", read_book(book, length), 0);
    is("wiring", (long long)bodies[2], 8208);
    is("wiring's length", (long long)bodies[3], 6);
    is("level", (long long)bodies[4], 8214);
    is("level's length", (long long)bodies[5], 5);
    is("program", (long long)bodies[0], 16);
    is("program's length", (long long)bodies[1], 8192);

    from("01, What comes back, 10; reading 23");
    for (int byte = 0; byte < 16; byte++) {
        memcpy(spoiled, book, sizeof book);
        spoiled[byte] ^= 1;
        bodies[0] = 99;
        is("a contents byte", read_book(spoiled, length), 10);
        is("value", (long long)told, 0);
        is("outs are left", (long long)bodies[0], 99);
    }
    is("a byte less", read_book(book, length - 1), 10);
    is("a byte more", read_book(book, length + 1), 10);
    is("an element more", read_book(book, length + 3), 10);
    is("nothing", read_book(book, 0), 10);
    is("contents only", read_book(book, 16), 10);

    from("01, What comes back, 11: the lowest kind");
    memcpy(spoiled, book, sizeof book);
    spoiled[8214 + 4] = 64;
    is("ground", read_book(spoiled, length), 11);
    is("kind", (long long)told, 3);
    spoiled[8208 + 2] = 4;
    is("both", read_book(spoiled, length), 11);
    is("kind", (long long)told, 2);
    spoiled[0] = 2;
    is("10 before 11", read_book(spoiled, length), 10);

    from("01, Panel book: the writer answers 10 for a length, 11 for a body, 7 last");
    memset(book, 0xEE, sizeof book);
    count = 99;
    is("program", second_book_write(program, 8191, bad_wiring, 6, level, 5, book, 0, &count, &told), 10);
    is("value", (long long)told, 0);
    is("wiring", second_book_write(program, 8192, bad_wiring, 5, level, 5, book, 0, &count, &told), 10);
    is("no wiring", second_book_write(program, 8192, wiring, 0, level, 5, book, 0, &count, &told), 10);
    is("level", second_book_write(program, 8192, bad_wiring, 6, level, 4, book, 0, &count, &told), 10);
    is("11", second_book_write(program, 8192, bad_wiring, 6, bad_level, 5, book, 0, &count, &told), 11);
    is("kind", (long long)told, 2);
    is("11", second_book_write(program, 8192, wiring, 6, bad_level, 5, book, 0, &count, &told), 11);
    is("kind", (long long)told, 3);
    is("7", second_book_write(program, 8192, wiring, 6, level, 5, book, length - 1, &count, &told), 7);
    is("room needed", (long long)told, (long long)length);
    is("count is left", (long long)count, 99);
    is("book is left", book[0], 0xEE);
    is("just enough", second_book_write(program, 8192, wiring, 6, level, 5, book, length, &count, &told), 0);
    is("beyond", book[length], 0xEE);
}

/* ---- Listings ---- */

/* A line for each mnemonic, and for words around the ranges that 01 prints, each worked out from 01's ranges and 003's
   patterns; the first eight are the examples of the request. */
static const struct {
    unsigned address, word;
    const char *line;
} lines[] = {
    {0x013, 0x3CA0, "013 3CA0 STA 0A0\n"},   {0x011, 0x48A0, "011 48A0 ADIM 020 1\n"},
    {0x020, 0xCB7F, "020 CB7F DAA 07F\n"},   {0xA34, 0x8923, "A34 8923 BNC 123\n"},
    {0x026, 0xEABC, "026 EABC JMP ABC\n"},   {0x022, 0xD042, "022 D042 RTNW 4 2\n"},
    {0xFFF, 0xFFFF, "FFF FFFF NOP\n"},       {0x029, 0xCB80, "029 CB80 DATA\n"},

    {0x000, 0x0000, "000 0000 ADC 000\n"},   {0x001, 0x07FF, "001 07FF ADCM 3FF\n"},
    {0x002, 0x0B00, "002 0B00 ADD 300\n"},   {0x003, 0x0C0F, "003 0C0F ADDM 00F\n"},
    {0x004, 0x1080, "004 1080 SBC 080\n"},   {0x005, 0x17FF, "005 17FF SBCM 3FF\n"},
    {0x006, 0x1801, "006 1801 SUB 001\n"},   {0x007, 0x1C7F, "007 1C7F SUBM 07F\n"},
    {0x008, 0x216D, "008 216D EOR 16D\n"},   {0x009, 0x2748, "009 2748 EORM 348\n"},
    {0x00A, 0x2AAA, "00A 2AAA OR 2AA\n"},    {0x00B, 0x2D55, "00B 2D55 ORM 155\n"},
    {0x00C, 0x3358, "00C 3358 AND 358\n"},   {0x00D, 0x3400, "00D 3400 ANDM 000\n"},
    {0x00E, 0x3BFF, "00E 3BFF LDA 3FF\n"},   {0x00F, 0x3FFF, "00F 3FFF STA 3FF\n"},
    {0x010, 0x4000, "010 4000 ADI 000 0\n"}, {0x012, 0x4FFF, "012 4FFF ADIM 07F F\n"},
    {0x014, 0x5080, "014 5080 SBI 000 1\n"}, {0x015, 0x5C20, "015 5C20 SBIM 020 8\n"},
    {0x016, 0x68A0, "016 68A0 ORIM 020 1\n"}, {0x017, 0x60A0, "017 60A0 EORIM 020 1\n"},
    {0x018, 0x7701, "018 7701 ANDIM 001 E\n"}, {0x019, 0x7FFF, "019 7FFF LDI 07F F\n"},
    {0x01A, 0x87FF, "01A 87FF BNZ 7FF\n"},   {0x01B, 0x9000, "01B 9000 BAZ 000\n"},
    {0x01C, 0x9C00, "01C 9C00 BC 400\n"},    {0x01D, 0xA0AB, "01D A0AB BA0 0AB\n"},
    {0x01E, 0xAFFF, "01E AFFF BA1 7FF\n"},   {0x01F, 0xB234, "01F B234 BA2 234\n"},
    {0x021, 0xBFFE, "021 BFFE BA3 7FE\n"},   {0x800, 0xC7FF, "800 C7FF CALL 7FF\n"},
    {0x801, 0xC000, "801 C000 CALL 000\n"},  {0x802, 0xCB00, "802 CB00 DAA 000\n"},
    {0x803, 0xCD00, "803 CD00 DAS 000\n"},   {0x804, 0xCD7F, "804 CD7F DAS 07F\n"},
    {0x805, 0xD000, "805 D000 RTNW 0 0\n"},  {0x806, 0xD0FE, "806 D0FE RTNW F E\n"},
    {0x807, 0xD400, "807 D400 RTNI\n"},      {0x808, 0xD800, "808 D800 HALT\n"},
    {0x809, 0xDC00, "809 DC00 STOP\n"},      {0x80A, 0xE000, "80A E000 JMP 000\n"},
    {0x80B, 0xEFFF, "80B EFFF JMP FFF\n"},   {0x80C, 0xF000, "80C F000 SHR\n"},
    {0x80D, 0xF7FF, "80D F7FF TJMP\n"},      {0x80E, 0xC800, "80E C800 DATA\n"},
    {0x80F, 0xCAFF, "80F CAFF DATA\n"},      {0x810, 0xCCFF, "810 CCFF DATA\n"},
    {0x811, 0xCD80, "811 CD80 DATA\n"},      {0x812, 0xD100, "812 D100 DATA\n"},
    {0x813, 0xD401, "813 D401 DATA\n"},      {0x814, 0xD7FF, "814 D7FF DATA\n"},
    {0x815, 0xDFFF, "815 DFFF DATA\n"},      {0x816, 0xF001, "816 F001 DATA\n"},
    {0x817, 0xF7FE, "817 F7FE DATA\n"},      {0xFFE, 0xFFFE, "FFE FFFE DATA\n"},
};

enum { LINES = sizeof lines / sizeof lines[0], PAPER = 4096 * 21, AROUND = 16 };

static uint8_t paper[PAPER + AROUND], read_back[8192 + AROUND];
static uint64_t written;

/* Where the line of each address begins, and behind the last where the text ends. */
static size_t begins[4097];

/* A program of NOPs with the lines' words in it, written to the paper. The line of a NOP has 13 bytes: FFF FFFF NOP and
   its line feed. */
static void write_lines(void)
{
    size_t at = 0;

    memset(program, 0xFF, sizeof program);
    for (unsigned address = 0; address < 4096; address++)
        begins[address + 1] = 13;
    for (int line = 0; line < LINES; line++) {
        put(lines[line].address, lines[line].word);
        begins[lines[line].address + 1] = strlen(lines[line].line);
    }
    for (unsigned address = 0; address <= 4096; address++)
        begins[address] = at += begins[address];
    memset(paper, 0xEE, sizeof paper);
    written = 99;
    is("writing", second_listing_write(program, sizeof program, paper, sizeof paper, &written, &told), 0);
}

static void one_line_for_each(void)
{
    char nop[14];
    unsigned wrong = 0;

    from("02 P3: every line, address, word, mnemonic, operands");
    write_lines();
    is("told", (long long)told, 0);
    is("written", (long long)written, (long long)begins[4096]);
    for (int line = 0; line < LINES; line++)
        is(lines[line].line, memcmp(paper + begins[lines[line].address], lines[line].line, strlen(lines[line].line)), 0);
    for (unsigned address = 0; address < 4096; address++) {
        snprintf(nop, sizeof nop, "%03X FFFF NOP\n", address);
        if (program[2 * address] == 0xFF && program[2 * address + 1] == 0xFF)
            wrong += memcmp(paper + begins[address], nop, 13) != 0;
    }
    is("lines of NOP that are wrong", wrong, 0);
    from("02 P3: what is written reads back equal");
    memset(read_back, 0xEE, sizeof read_back);
    is("reading", second_listing_read(paper, written, read_back, sizeof read_back, &told), 0);
    is("told", (long long)told, 0);
    is("the words", memcmp(read_back, program, sizeof program), 0);
    for (int at = 8192; at < 8192 + AROUND; at++)
        is("the room beyond", read_back[at], 0xEE);
}

/* A text that is refused leaves the room and tells the number of its good lines. */
static void is_refused(const char *what, const uint8_t *text, size_t length, unsigned good)
{
    unsigned changed = 0;

    memset(read_back, 0xEE, sizeof read_back);
    told = 12345;
    is(what, second_listing_read(text, length, read_back, sizeof read_back, &told), 26);
    is(what, (long long)told, good);
    for (size_t at = 0; at < sizeof read_back; at++)
        changed += read_back[at] != 0xEE;
    is("bytes that a refused text changed", changed, 0);
}

/* The paper with something else in the place of the line of an address. */
static uint8_t other[PAPER + 64];

static size_t with_line(unsigned address, const char *line)
{
    size_t length = strlen(line), rest = begins[4096] - begins[address + 1];

    memcpy(other, paper, begins[address]);
    memcpy(other + begins[address], line, length);
    memcpy(other + begins[address] + length, paper + begins[address + 1], rest);
    return begins[address] + length + rest;
}

static void lines_that_are_none(void)
{
    static const struct {
        unsigned address;
        const char *line;
    } bad[] = {
        /* In the place of 013 3CA0 STA 0A0: blanks, line ends, case, marks */
        {0x013, "013 3CA0 STA 0A0\r\n"}, {0x013, "013 3CA0 STA 0A0 \n"}, {0x013, " 013 3CA0 STA 0A0\n"},
        {0x013, "013  3CA0 STA 0A0\n"}, {0x013, "013 3CA0  STA 0A0\n"}, {0x013, "013 3CA0 STA  0A0\n"},
        {0x013, "013\t3CA0 STA 0A0\n"}, {0x013, "0133CA0 STA 0A0\n"}, {0x013, "013 3CA0STA 0A0\n"},
        {0x013, "013 3CA0 STA0A0\n"}, {0x013, "013 3CA0 STA 0A0"}, {0x013, "013 3CA0 STA 0A0\v"}, {0x013, "\n"},
        {0x013, ""}, {0x013, "\n013 3CA0 STA 0A0\n"}, {0x013, "013 3ca0 STA 0A0\n"}, {0x013, "013 3CA0 sta 0A0\n"},
        {0x013, "013 3CA0 STA 0a0\n"}, {0x013, "013 3CA0 STA $0A0\n"}, {0x013, "$013 3CA0 STA 0A0\n"},
        {0x013, "013 $3CA0 STA 0A0\n"}, {0x013, "013 3CA0 STA, 0A0\n"}, {0x013, "013 3CA0 STA 0A0,\n"},
        {0x013, "013 3CA0 STA 0A0 ; the level\n"}, {0x013, "013: 3CA0 STA 0A0\n"},
        /* ... the bank's digit lost, another cell, another word, another mnemonic, another address */
        {0x013, "013 3CA0 STA 020\n"}, {0x013, "013 3CA0 STA A0\n"}, {0x013, "013 3CA0 STA 00A0\n"},
        {0x013, "013 3CA0 STA 020 1\n"}, {0x013, "013 3CA0 STA 1 020\n"}, {0x013, "013 3CA0 STA 0A1\n"},
        {0x013, "013 3CA1 STA 0A0\n"}, {0x013, "013 3CA0 LDA 0A0\n"}, {0x013, "013 38A0 STA 0A0\n"},
        {0x013, "013 3CA0 STA 4A0\n"}, {0x013, "013 40A0 STA 0A0\n"}, {0x013, "013 3CA0 STAM 0A0\n"},
        {0x013, "013 3CA0 ST 0A0\n"}, {0x013, "013 3CA0 XYZ 0A0\n"}, {0x013, "013 3CA0 STA 0G0\n"},
        {0x013, "013 3CA0 STA\n"}, {0x013, "013 3CA0 STA \n"}, {0x013, "013 3CA0\n"}, {0x013, "013 3CA0 \n"},
        {0x013, "013\n"}, {0x013, "012 3CA0 STA 0A0\n"}, {0x013, "014 3CA0 STA 0A0\n"}, {0x013, "13 3CA0 STA 0A0\n"},
        {0x013, "0013 3CA0 STA 0A0\n"}, {0x013, "013 3CA STA 0A0\n"}, {0x013, "013 03CA0 STA 0A0\n"},
        {0x013, "3CA0 013 STA 0A0\n"}, {0x013, "013 3CA0 0A0 STA\n"}, {0x013, "013 3CA0 DATA\n"},
        {0x013, "013 3CA0 DATA 0A0\n"},
        /* In the place of 011 48A0 ADIM 020 1: the word's order, digits too few and too many */
        {0x011, "011 48A0 ADIM 1 020\n"}, {0x011, "011 48A0 ADIM 001 20\n"}, {0x011, "011 48A0 ADIM 20 1\n"},
        {0x011, "011 48A0 ADIM 020 01\n"}, {0x011, "011 48A0 ADIM 020, 1\n"}, {0x011, "011 48A0 ADIM 020\n"},
        {0x011, "011 48A0 ADIM 0A0 1\n"}, {0x011, "011 48A0 ADIM 0A0 0\n"}, {0x011, "011 48A0 ADIM 0A0\n"},
        {0x011, "011 48A0 ADIM 021 1\n"}, {0x011, "011 48A0 ADIM 020 2\n"}, {0x011, "011 48A0 ADI 020 1\n"},
        {0x011, "011 48A0 ADIM 020 1 \n"}, {0x011, "011 48A0 ADIM 020 1 0\n"}, {0x011, "011 48A0 ADIM 020  1\n"},
        {0x011, "011 48A0 ADIM 0201\n"}, {0x011, "011 48A0 DATA\n"}, {0x011, "011 48A0 ADIM 020 G\n"},
        /* In the place of 022 D042 RTNW 4 2 */
        {0x022, "022 D042 RTNW 2 4\n"}, {0x022, "022 D042 RTNW 42\n"}, {0x022, "022 D042 RTNW 042\n"},
        {0x022, "022 D042 RTNW 4\n"}, {0x022, "022 D042 RTNW 4, 2\n"}, {0x022, "022 D042 RTNW 004 002\n"},
        {0x022, "022 D042 RTNI\n"}, {0x022, "022 D042 DATA\n"},
        /* In the place of 020 CB7F DAA 07F */
        {0x020, "020 CB7F DAA 7F\n"}, {0x020, "020 CB7F DAS 07F\n"}, {0x020, "020 CB7F DAA 0FF\n"},
        {0x020, "020 CB7F DAA 37F\n"},
        /* In the place of A34 8923 BNC 123: with PC11 as the line has it, with the word's bit 11, another branch */
        {0xA34, "A34 8923 BNC 923\n"}, {0xA34, "A34 8923 BNC 23\n"}, {0xA34, "A34 8923 BC 123\n"},
        {0xA34, "a34 8923 BNC 123\n"}, {0xA34, "A34 8123 BNC 123\n"}, {0xA34, "A34 8923 JMP 923\n"},
        /* In the place of 026 EABC JMP ABC */
        {0x026, "026 EABC JMP 2BC\n"}, {0x026, "026 EABC JMP ABC 0\n"}, {0x026, "026 EABC CALL 2BC\n"},
        /* In the place of 029 CB80 DATA */
        {0x029, "029 CB80 DAA 080\n"}, {0x029, "029 CB80 DAA 000\n"}, {0x029, "029 CB80 data\n"},
        {0x029, "029 CB80 DAT\n"}, {0x029, "029 CB80 DATAA\n"}, {0x029, "029 CB80 DATA0\n"}, {0x029, "029 CB80 NOP\n"},
        {0x029, "029 CB80 DATA \n"}, {0x029, "029 CB80 DATA 080\n"}, {0x029, "029 CB80\n"}, {0x029, "029 CB00 DATA\n"},
        /* In the place of FFF FFFF NOP */
        {0xFFF, "FFF FFFF NOP 000\n"}, {0xFFF, "FFF FFFF NOP \n"}, {0xFFF, "FFF FFFF NOP\r\n"},
        {0xFFF, "FFF FFFF DATA\n"}, {0xFFF, "FFF FFFF NOP"}, {0xFFF, "FFF FFFF TJMP\n"}, {0xFFF, "FFF F7FF NOP\n"},
        {0xFFF, "000 FFFF NOP\n"}, {0xFFF, "FFFF FFF NOP\n"}, {0xFFF, "FFF FFFE NOP\n"},
    };

    from("02 P3: a text is accepted only if it is what the writer gives");
    for (size_t at = 0; at < sizeof bad / sizeof bad[0]; at++)
        is_refused(bad[at].line, other, with_line(bad[at].address, bad[at].line), bad[at].address);
    is_refused("a line twice", other, with_line(0x013, "013 3CA0 STA 0A0\n013 3CA0 STA 0A0\n"), 0x014);
    is_refused("an empty line behind a line", other, with_line(0x013, "013 3CA0 STA 0A0\n\n"), 0x014);
    is_refused("two lines swapped", other, with_line(0x013, "014 5080 SBI 000 1\n013 3CA0 STA 0A0\n"), 0x013);
}

static void lines_of_other_programs(void)
{
    static const struct {
        unsigned address, word;
        const char *line;
    } good[] = {
        {0x013, 0x3CA1, "013 3CA1 STA 0A1\n"},     {0x013, 0x38A0, "013 38A0 LDA 0A0\n"},
        {0x013, 0x60A0, "013 60A0 EORIM 020 1\n"}, {0x013, 0xD400, "013 D400 RTNI\n"},
        {0x029, 0xCB81, "029 CB81 DATA\n"},        {0x029, 0xCB7F, "029 CB7F DAA 07F\n"},
        {0xFFF, 0xF7FF, "FFF F7FF TJMP\n"},        {0xFFF, 0xFFFE, "FFF FFFE DATA\n"},
    };

    from("02 P3: what the writer gives for another program");
    for (size_t at = 0; at < sizeof good / sizeof good[0]; at++) {
        size_t length = with_line(good[at].address, good[at].line);
        uint8_t keeps[2] = {program[2 * good[at].address], program[2 * good[at].address + 1]};

        is(good[at].line, second_listing_read(other, length, read_back, sizeof read_back, &told), 0);
        put(good[at].address, good[at].word);
        is(good[at].line, memcmp(read_back, program, sizeof program), 0);
        memcpy(program + 2 * good[at].address, keeps, 2);
    }
}

/* Cut at every byte of some lines, and with something behind the last. */
static void cut_and_longer_texts(void)
{
    static const unsigned cut_in[] = {0, 1, 0x011, 0x013, 0x022, 0x7FF, 0x800, 0xFFE, 0xFFF};

    from("02 P3: 26 with the first bad line, counted from 0");
    is_refused("an empty text", paper, 0, 0);
    for (size_t at = 0; at < sizeof cut_in / sizeof cut_in[0]; at++)
        for (size_t length = begins[cut_in[at]]; length < begins[cut_in[at] + 1]; length++)
            is_refused("a cut text", paper, length, cut_in[at]);
    is_refused("without the last line feed", paper, begins[4096] - 1, 4095);
    for (unsigned byte = 0; byte < 256; byte++) {
        memcpy(other, paper, begins[4096]);
        other[begins[4096]] = (uint8_t)byte;
        is_refused("a byte behind the last line", other, begins[4096] + 1, 4096);
    }
    memcpy(other + begins[4096], "1000 FFFF NOP\n", 14);
    is_refused("a line too many", other, begins[4096] + 14, 4096);
    memcpy(other + begins[4096], "000 FFFF NOP\n", 13);
    is_refused("the first line again", other, begins[4096] + 13, 4096);
}

/* The longest listing and the shortest, by the lengths of the longest and the shortest line. */
static void listing_lengths(void)
{
    from("02 P3: lengths");
    for (unsigned address = 0; address < 4096; address++)
        put(address, 0x60A0);
    is("4,096 EORIM", second_listing_write(program, sizeof program, paper, PAPER, &written, &told), 0);
    is("their bytes", (long long)written, 4096 * 21);
    memset(program, 0xFF, sizeof program);
    is("4,096 NOPs", second_listing_write(program, sizeof program, paper, PAPER, &written, &told), 0);
    is("their bytes", (long long)written, 4096 * 13);
}

static void listing_refusals(void)
{
    static const size_t lengths[] = {0, 1, 4096, 8190, 8191, 8193, 8194, 16384};
    static const size_t write_rooms[] = {0, 1, 13, 8192, 50000}, read_rooms[] = {0, 1, 4096, 8190, 8191};
    static uint8_t longer[16384];
    unsigned changed = 0;
    size_t length;

    from("02 P3: 1, then 7 with this listing's own length");
    write_lines();
    length = begins[4096];
    memset(other, 0xEE, sizeof other);
    written = 99;
    for (size_t at = 0; at < sizeof lengths / sizeof lengths[0]; at++)
        for (size_t room = 0; room <= PAPER; room += PAPER) {
            is("a wrong length", second_listing_write(longer, lengths[at], other, room, &written, &told), 1);
            is("told", (long long)told, (long long)lengths[at]);
        }
    for (size_t at = 0; at < sizeof write_rooms / sizeof write_rooms[0]; at++) {
        is("too little room", second_listing_write(program, sizeof program, other, write_rooms[at], &written, &told), 7);
        is("told", (long long)told, (long long)length);
    }
    is("one byte short", second_listing_write(program, sizeof program, other, length - 1, &written, &told), 7);
    is("told", (long long)told, (long long)length);
    is("the count of a refused call", (long long)written, 99);
    for (size_t at = 0; at < sizeof other; at++)
        changed += other[at] != 0xEE;
    is("bytes that refused calls changed", changed, 0);
    is("room enough", second_listing_write(program, sizeof program, other, length, &written, &told), 0);
    is("told", (long long)told, 0);
    is("written", (long long)written, (long long)length);
    is("the text", memcmp(other, paper, length), 0);
    is("the byte behind", other[length], 0xEE);
    is("more room", second_listing_write(program, sizeof program, other, length + 9, &written, &told), 0);
    for (size_t at = length; at < length + 9; at++)
        is("the room beyond", other[at], 0xEE);

    from("02 P3: 26, then 7 with the room for 4,096 words");
    memset(read_back, 0xEE, sizeof read_back);
    for (size_t at = 0; at < sizeof read_rooms / sizeof read_rooms[0]; at++) {
        is("too little room", second_listing_read(paper, length, read_back, read_rooms[at], &told), 7);
        is("told", (long long)told, 8192);
        is("26 first", second_listing_read(paper, length - 1, read_back, read_rooms[at], &told), 26);
        is("told", (long long)told, 4095);
    }
    for (size_t at = 0; at < sizeof read_back; at++)
        changed += read_back[at] != 0xEE;
    is("bytes that refused calls changed", changed, 0);
    is("room enough", second_listing_read(paper, length, read_back, 8192, &told), 0);
    is("told", (long long)told, 0);
    is("the words", memcmp(read_back, program, sizeof program), 0);
    is("the byte behind", read_back[8192], 0xEE);
}

/* Each of the 65,536 words in the first line, as DATA and as the writer writes it. */
static void every_word_on_paper(void)
{
    unsigned as_data = 0, as_written = 0;

    from("01 Instruction words: 55,814 listed, 9,722 unlisted");
    write_lines();
    for (unsigned word = 0; word <= 0xFFFF; word++) {
        char line[16];
        uint8_t first[2] = {(uint8_t)(word >> 8), (uint8_t)word};

        snprintf(line, sizeof line, "000 %04X DATA\n", word);
        (void)second_listing_read((const uint8_t *)line, 14, read_back, sizeof read_back, &told);
        as_data += told == 1;
        memcpy(program, first, 2);
        if (word % 16 != 0 && word < 0xC000)
            continue;
        (void)second_listing_write(program, sizeof program, other, PAPER, &written, &told);
        (void)second_listing_read(other, 22, read_back, sizeof read_back, &told);
        as_written += told == 1;
    }
    is("words that can be DATA", as_data, 9722);
    is("words that read as they are written", as_written, 0xC000 / 16 + 0x4000);
}

static void listings(void)
{
    one_line_for_each();
    lines_that_are_none();
    lines_of_other_programs();
    cut_and_longer_texts();
    listing_refusals();
    listing_lengths();
    every_word_on_paper();
}

/* ---- Two cars ---- */

static struct {
    uint8_t memory[1024], record[45], picture[5];
} car[2];

static const uint8_t lamps[9] = {0x03, 0x00, 0, 0x03, 0x00, 1, 0x03, 0x48, 3};
static uint32_t reason_of[2];
static uint64_t entries_read;

/* What a call of two cars is lent besides, so that a case can lend it wrong. */
static struct {
    size_t program, wiring, memory[2], record[2], room[2];
} lent_length;
static const uint8_t *lent_wiring;

/* Two fresh cars, a program of NOPs, and rooms for the pictures of three lamps and two bytes beyond. */
static void two_fresh(void)
{
    fresh();
    for (int at = 0; at < 2; at++) {
        memcpy(car[at].memory, memory, sizeof memory);
        memcpy(car[at].record, record, sizeof record);
        memset(car[at].picture, 0xEE, sizeof car[at].picture);
        lent_length.memory[at] = sizeof memory;
        lent_length.record[at] = sizeof record;
        lent_length.room[at] = sizeof car[at].picture;
    }
    lent_length.program = sizeof program;
    lent_length.wiring = sizeof lamps;
    lent_wiring = lamps;
}

static uint32_t run_two(const uint8_t *script, size_t length, uint32_t stop0, uint32_t stop1)
{
    reason_of[0] = reason_of[1] = 99;
    entries_read = 99;
    told = 99;
    return second_run_two(program, lent_length.program, lent_wiring, lent_length.wiring,
                          car[0].memory, lent_length.memory[0], car[0].record, lent_length.record[0],
                          car[0].picture, lent_length.room[0],
                          car[1].memory, lent_length.memory[1], car[1].record, lent_length.record[1],
                          car[1].picture, lent_length.room[1],
                          script, length, stop0, stop1, &reason_of[0], &reason_of[1], &entries_read, &told);
}

static unsigned pc_of(int at)
{
    return (unsigned)car[at].record[R_PC] << 8 | car[at].record[R_PC + 1];
}

static void set_pc_of(int at, unsigned pc)
{
    car[at].record[R_PC] = (uint8_t)(pc >> 8);
    car[at].record[R_PC + 1] = (uint8_t)pc;
}

/* A run that is done, why each car stopped and where, and the entries read. */
static void two_end(const uint8_t *script, size_t length, uint32_t stop0, uint32_t stop1, const unsigned reasons[2],
                    const unsigned pcs[2], unsigned entries)
{
    is("answer", run_two(script, length, stop0, stop1), 0);
    is("value", (long long)told, 0);
    is("entries read", (long long)entries_read, entries);
    is("reason of car 0", reason_of[0], reasons[0]);
    is("reason of car 1", reason_of[1], reasons[1]);
    is("PC of car 0", pc_of(0), pcs[0]);
    is("PC of car 1", pc_of(1), pcs[1]);
}

#define ENDS(script, stop0, stop1, reason0, reason1, pc0, pc1, entries) \
    two_end(script, sizeof script, stop0, stop1, (unsigned[]){reason0, reason1}, (unsigned[]){pc0, pc1}, entries)

static void each_entry_has_its_car(void)
{
    static const uint8_t both[] = {0, CYCLE, 1, CYCLE, 0, CYCLE};
    static const uint8_t pins_of_1[] = {1, PIN_B | 5};
    static const uint8_t only_0[] = {0, CYCLE, 0, CYCLE, 0, CYCLE};
    static const uint8_t pulses[] = {0, BASE_PULSE, 1, WATCHDOG_PULSE, 1, WATCHDOG_PULSE, 0, SOUND_CLOCK};
    static const uint8_t reset_of_1[] = {1, RESET_PIN};

    from("02, P5: an entry is the car and then the event");
    two_fresh();
    put(0, made(LDI, 0x20, 7));
    put(1, made(LDI, 0x21, 9));
    ENDS(both, NO_STOP, NO_STOP, 2, 2, 2, 1, 3);
    is("$020 of car 0", car[0].memory[0x020], 7);
    is("$021 of car 0", car[0].memory[0x021], 9);
    is("$020 of car 1", car[1].memory[0x020], 7);
    is("$021 of car 1", car[1].memory[0x021], 0);
    two_fresh();
    ENDS(pins_of_1, NO_STOP, NO_STOP, 2, 2, 0, 0, 1);
    is("pins B of car 0", car[0].record[R_PIN_B], 0);
    is("pins B of car 1", car[1].record[R_PIN_B], 5);
    from("02, P5: a car without entries");
    two_fresh();
    ENDS(only_0, NO_STOP, NO_STOP, 2, 2, 3, 0, 3);
    is("prescaler of car 0", car[0].record[R_T0_PRESCALER + 1], 3);
    is("prescaler of car 1", car[1].record[R_T0_PRESCALER + 1], 0);
    from("02, P5: every kind of event");
    two_fresh();
    for (int at = 0; at < 2; at++) {
        car[at].memory[0x003] = 8; /* base timer on, ratio 1 */
        car[at].memory[0x377] = 1;
        car[at].memory[0x371] = 1;
        car[at].record[R_OPTIONS] = 1;
        set_pc_of(at, 0x123);
    }
    ENDS(pulses, NO_STOP, NO_STOP, 2, 2, 0x123, 0x123, 4);
    is("base counter of car 0", car[0].record[R_BASE_COUNTER], 1);
    is("base counter of car 1", car[1].record[R_BASE_COUNTER], 0);
    is("count of car 0's channel", car[0].record[R_COUNT_1 + 1], 126);
    is("count of car 1's channel", car[1].record[R_COUNT_1 + 1], 0);
    ENDS(reset_of_1, NO_STOP, NO_STOP, 2, 2, 0x123, 0, 1);
    is("watchdog of car 0", car[0].record[R_WATCHDOG + 1], 0);
    is("watchdog of car 1 after its reset", car[1].record[R_WATCHDOG] << 8 | car[1].record[R_WATCHDOG + 1], 4096);
    is("$003 of car 0", car[0].memory[0x003], 8);
    is("$003 of car 1 after its reset", car[1].memory[0x003], 0);
}

static void each_car_stops(void)
{
    static const uint8_t turns[] = {0, CYCLE, 1, CYCLE, 0, CYCLE, 1, CYCLE, 0, CYCLE, 1, CYCLE, 0, CYCLE, 1, CYCLE};
    static const uint8_t only_0[] = {0, CYCLE, 0, CYCLE, 0, CYCLE};
    static const uint8_t only_1[] = {1, CYCLE, 1, CYCLE, 1, CYCLE};
    static const uint8_t twice_1[] = {1, CYCLE, 1, CYCLE, 0, CYCLE, 0, CYCLE};
    static const uint8_t reset_then_cycle[] = {1, RESET_PIN, 1, CYCLE};

    from("02, P5: a car stops at its own stop address");
    two_fresh();
    ENDS(turns, 2, 3, 0, 0, 2, 3, 6);
    two_fresh();
    ENDS(turns, 3, 1, 0, 0, 3, 1, 5);
    two_fresh();
    ENDS(turns, 2, NO_STOP, 0, 2, 2, 4, 8);
    two_fresh();
    ENDS(turns, NO_STOP, 2, 2, 0, 4, 2, 8);
    from("02, P5: the stop address of the other car is not looked at");
    two_fresh();
    ENDS(only_0, NO_STOP, 1, 2, 2, 3, 0, 3);
    two_fresh();
    ENDS(only_1, 1, NO_STOP, 2, 2, 0, 3, 3);
    from("01, 4096 and up: none");
    two_fresh();
    ENDS(turns, 0x1002, 0xFFFFFFFF, 2, 2, 4, 4, 8);
    from("01, the earlier named if two hold");
    two_fresh();
    ENDS(turns, 4, 4, 0, 0, 4, 4, 8);
    two_fresh();
    put(1, 0xF800);
    ENDS(turns, 1, NO_STOP, 0, 1, 1, 1, 4);
    from("reading 18: also a cycle asleep, never another event");
    two_fresh();
    car[0].record[R_MODE] = IN_HALT;
    car[1].record[R_MODE] = IN_STOP;
    set_pc_of(0, 5);
    set_pc_of(1, 6);
    ENDS(turns, 5, 6, 0, 0, 5, 6, 2);
    two_fresh();
    set_pc_of(1, 5);
    ENDS(reset_then_cycle, NO_STOP, 0, 2, 2, 0, 1, 2);

    from("02, P5: a car that meets an unlisted word; the call is not refused");
    two_fresh();
    put(1, 0xF800);
    set_pc_of(1, 5);
    car[0].record[R_PENDING] = 1;
    car[0].record[R_PENDING_ADDRESS + 1] = 9;
    ENDS(turns, NO_STOP, NO_STOP, 1, 2, 1, 9, 8);
    is("the cycle before the word", car[0].record[R_T0_PRESCALER + 1], 1);
    is("its read has landed", car[0].record[R_PENDING], 0);
    two_fresh();
    put(0, 0xF800);
    set_pc_of(1, 5);
    car[0].record[R_PENDING] = 1;
    car[0].record[R_PENDING_ADDRESS + 1] = 9;
    memcpy(record, car[0].record, sizeof record);
    ENDS(turns, NO_STOP, NO_STOP, 1, 2, 0, 9, 8);
    is("record changed", memcmp(car[0].record, record, sizeof record) != 0, 0);
    from("reading 17: only a cycle that would execute the word");
    two_fresh();
    put(0, 0xF800);
    car[0].record[R_MODE] = IN_HALT;
    ENDS(turns, NO_STOP, NO_STOP, 2, 1, 0, 0, 8);
    two_fresh();
    put(3, 0xF800);
    ENDS(only_0, NO_STOP, NO_STOP, 2, 2, 3, 0, 3);

    from("02, P5: the run ends with the entry that stops the second car");
    two_fresh();
    put(0, 0xF800);
    ENDS(turns, NO_STOP, NO_STOP, 1, 1, 0, 0, 2);
    two_fresh();
    put(0, 0xF800);
    ENDS(twice_1, NO_STOP, NO_STOP, 1, 1, 0, 0, 3);
    two_fresh();
    put(7, 0xF800);
    set_pc_of(1, 7);
    ENDS(turns, 3, NO_STOP, 0, 1, 3, 7, 5);
    from("02, P5: with one car stopped the run goes on to the script's end");
    two_fresh();
    ENDS(only_0, 1, NO_STOP, 0, 2, 1, 0, 3);
    two_fresh();
    put(0, 0xF800);
    ENDS(only_1, NO_STOP, NO_STOP, 2, 1, 0, 0, 3);
}

static void a_stopped_car_takes_nothing(void)
{
    static const uint8_t after_stop[] = {0, CYCLE,  0, RESET_PIN, 0, PIN_A | 15, 0, BASE_PULSE,
                                         0, CYCLE,  1, CYCLE,     0, SOUND_CLOCK, 0, WATCHDOG_PULSE};
    static const uint8_t reset_of_both[] = {0, CYCLE, 0, RESET_PIN, 0, CYCLE, 1, RESET_PIN, 1, CYCLE};

    from("02, P5: a stopped car takes no more entries, no reset either");
    two_fresh();
    car[0].memory[0x003] = 8;
    set_pc_of(0, 6);
    ENDS(after_stop, 7, NO_STOP, 0, 2, 7, 1, 8);
    is("pins A", car[0].record[R_PIN_A], 0);
    is("base counter", car[0].record[R_BASE_COUNTER], 0);
    is("$003", car[0].memory[0x003], 8);
    is("prescaler", car[0].record[R_T0_PRESCALER + 1], 1);
    two_fresh();
    put(6, 0xF800);
    set_pc_of(0, 6);
    set_pc_of(1, 6);
    ENDS(reset_of_both, NO_STOP, NO_STOP, 1, 2, 6, 1, 5);
}

static void two_pictures(void)
{
    static const uint8_t one_each[] = {0, CYCLE, 1, CYCLE};
    static const uint8_t only_0[] = {0, CYCLE, 0, CYCLE, 0, CYCLE};
    static const uint8_t nothing[1] = {0};
    static const uint8_t one_lamp[3] = {0x03, 0x48, 3};
    static uint8_t memory_then[2][1024], record_then[2][45];

    from("02, P5: pictures after an empty script");
    two_fresh();
    for (int at = 0; at < 2; at++)
        car[at].memory[0x007] = 4;
    car[0].memory[0x300] = 1;
    car[1].memory[0x300] = 2;
    car[1].memory[0x348] = 8;
    for (int at = 0; at < 2; at++) {
        memcpy(memory_then[at], car[at].memory, sizeof memory);
        memcpy(record_then[at], car[at].record, sizeof record);
    }
    two_end(nothing, 0, 0, 0, (unsigned[]){2, 2}, (unsigned[]){0, 0}, 0);
    for (int at = 0; at < 2; at++) {
        is("memory changed", memcmp(car[at].memory, memory_then[at], sizeof memory) != 0, 0);
        is("record changed", memcmp(car[at].record, record_then[at], sizeof record) != 0, 0);
        is("beyond", car[at].picture[3], 0xEE);
        is("beyond", car[at].picture[4], 0xEE);
    }
    is("car 0, lamp 0", car[0].picture[0], 1);
    is("car 0, lamp 1", car[0].picture[1], 0);
    is("car 0, lamp 2", car[0].picture[2], 0);
    is("car 1, lamp 0", car[1].picture[0], 0);
    is("car 1, lamp 1", car[1].picture[1], 1);
    is("car 1, lamp 2", car[1].picture[2], 1);

    from("01, Panel book: all 0 when LCDON is 0 or in STOP");
    car[0].memory[0x007] = 3;
    car[1].record[R_MODE] = IN_STOP;
    is("answer", run_two(nothing, 0, 0, 0), 0);
    is("LCDON 0", car[0].picture[0], 0);
    is("STOP", car[1].picture[1], 0);

    from("02, P5: the picture is that of the state in which the car ends");
    two_fresh();
    put(0, made(STA, 0x300, 0));
    put(1, made(STA, 0x348, 0));
    for (int at = 0; at < 2; at++) {
        car[at].memory[0x007] = 4;
        car[at].record[R_AC] = 15;
    }
    ENDS(one_each, NO_STOP, NO_STOP, 2, 2, 1, 1, 2);
    is("car 0, lamp 1", car[0].picture[1], 1);
    is("car 0, lamp 2", car[0].picture[2], 0);
    is("car 1, lamp 1", car[1].picture[1], 1);
    ENDS(only_0, NO_STOP, NO_STOP, 2, 2, 4, 1, 3);
    is("car 0, lamp 2", car[0].picture[2], 1);
    is("car 1, lamp 2", car[1].picture[2], 0);
    from("02, P5: a stopped car's picture");
    two_fresh();
    put(0, made(STA, 0x300, 0));
    put(1, made(STA, 0x348, 0));
    put(2, 0xF800);
    for (int at = 0; at < 2; at++) {
        car[at].memory[0x007] = 4;
        car[at].record[R_AC] = 15;
    }
    ENDS(only_0, 1, NO_STOP, 0, 2, 1, 0, 3);
    is("car 0, lamp 0", car[0].picture[0], 1);
    is("car 0, lamp 2", car[0].picture[2], 0);
    is("car 1, lamp 0", car[1].picture[0], 0);
    ENDS(only_0, NO_STOP, NO_STOP, 1, 2, 2, 0, 3);
    is("in front of an unlisted word, lamp 2", car[0].picture[2], 1);

    from("01, What comes back: bytes beyond what is written stay");
    two_fresh();
    lent_wiring = one_lamp;
    lent_length.wiring = sizeof one_lamp;
    is("one lamp in a room of five", run_two(nothing, 0, 0, 0), 0);
    for (int at = 0; at < 2; at++)
        for (int place_in = 0; place_in < 5; place_in++)
            is("a picture's byte", car[at].picture[place_in], place_in == 0 ? 0 : 0xEE);
}

/* What comes back, held to a number and value, with every lent byte and out number as it was. */
static void two_refused(const char *what, const uint8_t *script, size_t length, uint32_t number, uint64_t value)
{
    static uint8_t then[sizeof car];

    memcpy(then, car, sizeof car);
    is(what, run_two(script, length, 0, 0), number);
    is("value", (long long)told, (long long)value);
    is("a lent byte changed", memcmp(car, then, sizeof car) != 0, 0);
    is("reason of car 0 is left", reason_of[0], 99);
    is("reason of car 1 is left", reason_of[1], 99);
    is("entries are left", (long long)entries_read, 99);
}

/* All refusals apply at first; each that was told is then mended. */
static void two_refusals_in_order(void)
{
    static const uint8_t bad_lamps[9] = {0x03, 0x00, 0, 0x03, 0x00, 4, 0x03, 0x49, 3};
    uint8_t script[] = {0, CYCLE, 2, CYCLE, 9, 0x50, 1, 0x04, 1};

    from("02, P5: refusals in order; 01, lowest number first, 7 last");
    two_fresh();
    put(0, 0xF800);
    lent_length.program = 8190;
    lent_length.memory[0] = 1023;
    lent_length.memory[1] = 1025;
    car[0].memory[0x3FF] = 1;
    car[1].memory[0x004] = 1;
    lent_length.record[0] = 44;
    car[1].record[R_AC] = 16;
    lent_wiring = bad_lamps;
    lent_length.wiring = 8;
    lent_length.room[0] = 2;
    lent_length.room[1] = 0;
    two_refused("1", script, sizeof script, 1, 8190);
    lent_length.program = 8192;
    two_refused("2 of car 0", script, sizeof script, 2, 1023);
    lent_length.memory[0] = 1024;
    two_refused("2 of car 1", script, sizeof script, 2, 1025);
    lent_length.memory[1] = 1024;
    two_refused("3 of car 0", script, sizeof script, 3, 0x3FF);
    car[0].memory[0x3FF] = 0;
    two_refused("3 of car 1", script, sizeof script, 3, 0x004);
    car[1].memory[0x004] = 0;
    two_refused("4 of car 0", script, sizeof script, 4, 0);
    lent_length.record[0] = 45;
    two_refused("4 of car 1", script, sizeof script, 4, 0);
    car[1].record[R_AC] = 15;
    two_refused("5", script, sizeof script, 5, 5);
    script[5] = CYCLE;
    two_refused("5 further on", script, sizeof script, 5, 7);
    script[7] = CYCLE;
    two_refused("10", script, sizeof script, 10, 0);
    lent_length.wiring = 9;
    two_refused("11", script, sizeof script, 11, 2);
    lent_wiring = lamps;
    two_refused("27", script, sizeof script, 27, 2);
    script[2] = 1;
    two_refused("27 further on", script, sizeof script, 27, 4);
    script[4] = 0;
    two_refused("28", script, sizeof script, 28, 8);
    two_refused("7 of car 0", script, sizeof script - 1, 7, 3);
    lent_length.room[0] = 3;
    two_refused("7 of car 1", script, sizeof script - 1, 7, 3);
    lent_length.room[1] = 3;
    is("done, in front of unlisted words", run_two(script, sizeof script - 1, 0, 0), 0);
    is("reason of car 0", reason_of[0], 1);
    is("reason of car 1", reason_of[1], 1);
    is("entries", (long long)entries_read, 2);
}

static void a_machine_of_either_car(void)
{
    static const uint8_t nothing[1] = {0};

    from("02, P5: 2, 3 and 4 of either car");
    for (int at = 0; at < 2; at++) {
        two_fresh();
        lent_length.memory[at] = 0;
        two_refused("no memory", nothing, 0, 2, 0);
        two_fresh();
        car[at].memory[0x170] = 1;
        car[at].memory[0x007] = 8;
        two_refused("a cell", nothing, 0, 3, 0x007);
        two_fresh();
        lent_length.record[at] = 0;
        two_refused("no record", nothing, 0, 4, 0);
        two_fresh();
        lent_length.record[at] = 44;
        two_refused("a record of 44 bytes", nothing, 0, 4, 0);
        two_fresh();
        car[at].record[R_WATCHDOG] = car[at].record[R_WATCHDOG + 1] = 0;
        two_refused("a watchdog count of 0", nothing, 0, 4, 0);
    }
    from("02, P5: at equal numbers car 0 first");
    two_fresh();
    lent_length.memory[0] = 1025;
    lent_length.memory[1] = 7;
    two_refused("2 of both", nothing, 0, 2, 1025);
    two_fresh();
    car[0].memory[0x170] = 1;
    car[1].memory[0x007] = 8;
    two_refused("3 of both", nothing, 0, 3, 0x170);
    from("02, P5: a lower number of car 1 before a higher one of car 0");
    two_fresh();
    car[0].memory[0x170] = 1;
    lent_length.memory[1] = 7;
    two_refused("2 of car 1, 3 of car 0", nothing, 0, 2, 7);
    two_fresh();
    car[0].record[R_AC] = 16;
    car[1].memory[0x007] = 8;
    two_refused("3 of car 1, 4 of car 0", nothing, 0, 3, 7);
}

static void two_car_scripts_refused(void)
{
    static const uint8_t lone_first[] = {0}, lone_second[] = {1}, lone_above[] = {2}, lone_event[] = {0x50};
    static const uint8_t cut[] = {0, CYCLE, 1, CYCLE, 1};
    static const uint8_t cut_above[] = {0, CYCLE, 1, CYCLE, 2};
    static const uint8_t cut_and_car[] = {0, CYCLE, 3, CYCLE, 1};
    static const uint8_t car_then_event[] = {7, CYCLE, 0, 0x50};
    static const uint8_t of_car_1[] = {1, CYCLE}; /* event first, it would be a base pulse of car 0 */
    uint8_t script[] = {0, CYCLE, 1, CYCLE, 0, CYCLE};

    from("02, P5: 28, the place of the lone car");
    two_fresh();
    two_refused("a script of one byte", lone_first, 1, 28, 0);
    two_refused("a script of one byte", lone_second, 1, 28, 0);
    two_refused("a lone byte at the end", cut, sizeof cut, 28, 4);
    from("02, P5: 27 before 28, a lone byte above 1 too");
    two_refused("a script of one byte", lone_above, 1, 27, 0);
    two_refused("a script of one byte, no event", lone_event, 1, 27, 0);
    two_refused("a lone byte at the end", cut_above, sizeof cut_above, 27, 4);
    two_refused("a car before it", cut_and_car, sizeof cut_and_car, 27, 2);
    from("02, P5: the lowest number wins wherever it stands");
    two_refused("a car, then an event", car_then_event, sizeof car_then_event, 5, 3);
    from("02, P5: the car comes first");
    is("0 and 1 are events too", run_two(of_car_1, sizeof of_car_1, NO_STOP, NO_STOP), 0);
    is("PC of car 0", pc_of(0), 0);
    is("PC of car 1", pc_of(1), 1);
    from("01, Events; 02, P5: every event byte and every car byte");
    for (unsigned byte = 0; byte < 256; byte++)
        for (size_t entry = 0; entry < 3; entry++) {
            bool known = byte <= 3 || byte == 5 || (byte >= 0x10 && byte <= 0x4F);

            two_fresh();
            script[2 * entry + 1] = (uint8_t)byte;
            if (known)
                is("a known event", run_two(script, sizeof script, NO_STOP, NO_STOP), 0);
            else
                two_refused("an unknown event", script, sizeof script, 5, 2 * entry + 1);
            script[2 * entry + 1] = CYCLE;
            two_fresh();
            script[2 * entry] = (uint8_t)byte;
            if (byte < 2)
                is("a car", run_two(script, sizeof script, NO_STOP, NO_STOP), 0);
            else
                two_refused("no car", script, sizeof script, 27, 2 * entry);
            script[2 * entry] = entry == 1;
        }
    from("02, P5: the whole script is judged, though both cars would stop before");
    two_fresh();
    put(0, 0xF800);
    script[5] = 0x50;
    two_refused("an event", script, sizeof script, 5, 5);
    script[5] = CYCLE;
    script[4] = 2;
    two_refused("a car", script, sizeof script, 27, 4);
    script[4] = 1;
    two_refused("a cut entry", script, sizeof script - 1, 28, 4);
}

static void two_wirings_and_rooms(void)
{
    static const uint8_t nothing[1] = {0};
    static const uint8_t bad_bit[9] = {0x03, 0x00, 0, 0x03, 0x00, 4, 0x03, 0x48, 3};
    static const uint8_t not_display[9] = {0x03, 0x00, 0, 0x03, 0x00, 1, 0x03, 0x49, 3};
    static uint8_t many[723];

    from("02, P5: 10 and 11, the wiring as the picture call takes it");
    two_fresh();
    for (int element = 0; element < 241; element++)
        many[3 * element] = 3;
    lent_wiring = many;
    lent_length.wiring = 0;
    two_refused("no element", nothing, 0, 10, 0);
    lent_length.wiring = 4;
    two_refused("not of threes", nothing, 0, 10, 0);
    lent_length.wiring = 723;
    two_refused("241 elements", nothing, 0, 10, 0);
    lent_length.wiring = 9;
    lent_wiring = bad_bit;
    two_refused("a bit", nothing, 0, 11, 2);
    lent_wiring = not_display;
    two_refused("a cell", nothing, 0, 11, 2);
    from("02, P5: 7, the elements of the wiring");
    lent_wiring = many;
    lent_length.wiring = 720;
    two_refused("240 elements", nothing, 0, 7, 240);
    two_fresh();
    lent_length.room[1] = 2;
    two_refused("of car 1 alone", nothing, 0, 7, 3);
    lent_length.room[0] = 0;
    lent_length.room[1] = 3;
    two_refused("of car 0 alone", nothing, 0, 7, 3);
    lent_length.room[0] = 3;
    is("room enough", run_two(nothing, 0, 0, 0), 0);
}

static void two_cars(void)
{
    each_entry_has_its_car();
    each_car_stops();
    a_stopped_car_takes_nothing();
    two_pictures();
    two_refusals_in_order();
    a_machine_of_either_car();
    two_car_scripts_refused();
    two_wirings_and_rooms();
}

/* ---- The cross-reference ---- */

enum { NUMBERS = 5120, NEXT = 1024, NONE = 4096, BEYOND = 3, CHAIN_MOST = 8, OLD_NUMBER = 0xEEEE };

static uint16_t tables[NUMBERS + BEYOND];

/* What is kept under a cell, by hand: its addresses in order, ended by NONE. */
struct chain {
    unsigned cell;
    unsigned address[CHAIN_MOST];
};

/* All numbers, those of the chains and 4,096 at every other place, and those beyond as they were. */
static void tables_are(const char *what, const struct chain *chains, size_t count)
{
    static uint16_t wanted[NUMBERS];
    unsigned wrong = 0;

    for (int at = 0; at < NUMBERS; at++)
        wanted[at] = NONE;
    for (size_t at = 0; at < count; at++) {
        uint16_t *link = &wanted[chains[at].cell];

        for (const unsigned *address = chains[at].address; *address != NONE; address++) {
            *link = (uint16_t)*address;
            link = &wanted[NEXT + *address];
        }
    }
    for (int at = 0; at < NUMBERS; at++)
        wrong += tables[at] != wanted[at];
    for (int at = NUMBERS; at < NUMBERS + BEYOND; at++)
        wrong += tables[at] != OLD_NUMBER;
    is(what, wrong, 0);
}

#define TABLES_ARE(what, chains) tables_are(what, chains, sizeof chains / sizeof chains[0])

static void build(void)
{
    for (int at = 0; at < NUMBERS + BEYOND; at++)
        tables[at] = OLD_NUMBER;
    told = 99;
    is("building", second_xref_build(program, sizeof program, tables, NUMBERS + BEYOND, &told), 0);
    is("value", (long long)told, 0);
}

static uint8_t answered[8192];
static uint64_t answered_bytes;

static uint32_t ask(uint32_t cell, size_t room)
{
    memset(answered, 0xEE, sizeof answered);
    answered_bytes = 99;
    told = 99;
    return second_xref_list(program, sizeof program, tables, NUMBERS + BEYOND, cell, answered, room, &answered_bytes,
                            &told);
}

/* What a cell answers, by hand, ended by NONE. */
static void answers(unsigned cell, const unsigned *addresses)
{
    size_t count = 0;

    is("asking", ask(cell, sizeof answered), 0);
    is("value", (long long)told, 0);
    for (; addresses[count] != NONE; count++)
        is("an address", answered[2 * count] << 8 | answered[2 * count + 1], addresses[count]);
    is("bytes", (long long)answered_bytes, (long long)(2 * count));
    is("beyond", answered[2 * count], 0xEE);
}

#define ANSWERS(cell, ...) answers(cell, (unsigned[]){__VA_ARGS__})

static void kept_under_cells(void)
{
    static const struct chain twelfth[] = {{0x020, {0x011, NONE}}, {0x00F, {0x012, NONE}}, {0x0A0, {0x013, NONE}}};
    static const struct chain one_cell[] = {{0x020, {0x000, 0x001, 0x7FF, 0x800, 0xFFF, NONE}}};
    static const struct chain through[] = {
        {0x00F, {0x004, 0x009, 0xFFF, NONE}}, {0x16F, {0x007, 0x00A, NONE}}, {0x348, {0x003, NONE}}};

    from("01, number 12, in tables (02, P7)");
    fresh();
    put(0x010, 0x4820);
    put(0x011, 0x48A0);
    put(0x012, 0x3C0F);
    put(0x013, 0x3CA0);
    put(0x014, 0x77A0);
    build();
    TABLES_ARE("its tables", twelfth);
    ANSWERS(0x020, 0x011, 0x012, NONE);
    ANSWERS(0x0A0, 0x012, 0x013, NONE);
    ANSWERS(0x021, 0x012, NONE);

    from("02, P7: a cell's writers, ascending, from the first address to the last");
    fresh();
    put(0x000, made(LDI, 0x20, 0));
    put(0x001, made(DAA, 0x20, 0));
    put(0x7FF, made(ADCM, 0x020, 0));
    put(0x800, made(SBIM, 0x20, 1));
    put(0xFFF, made(STA, 0x020, 0));
    build();
    TABLES_ARE("one cell's", one_cell);
    ANSWERS(0x020, 0x000, 0x001, 0x7FF, 0x800, 0xFFF, NONE);
    ANSWERS(0x021, NONE);

    from("02, P7: writers through $00F are kept once and joined in the answer");
    fresh();
    put(0x003, made(EORM, 0x348, 0));
    put(0x004, made(STA, 0x00F, 0));
    put(0x007, made(STA, 0x16F, 0));
    put(0x009, made(LDI, 0x0F, 3));
    put(0x00A, made(ORM, 0x16F, 0));
    put(0xFFF, made(DAS, 0x0F, 0));
    build();
    TABLES_ARE("those through $00F", through);
    ANSWERS(0x16F, 0x004, 0x007, 0x009, 0x00A, 0xFFF, NONE);
    ANSWERS(0x348, 0x003, 0x004, 0x009, 0xFFF, NONE);
    ANSWERS(0x358, 0x004, 0x009, 0xFFF, NONE);

    from("02, P7: a program that writes nothing");
    fresh();
    build();
    tables_are("all 4,096", NULL, 0);
    ANSWERS(0x020, NONE);
}

/* One word after the other, from address 0 on; between them they have every mnemonic that writes. */
static void every_kind_of_writer(void)
{
    static const struct {
        enum mnemonic mnemonic;
        unsigned first, second, cell;
    } kept[] = {
        {ADCM, 0x020, 0, 0x020}, {ADDM, 0x16F, 0, 0x16F}, {SBCM, 0x300, 0, 0x300}, {SUBM, 0x348, 0, 0x348},
        {EORM, 0x358, 0, 0x358}, {ORM, 0x36D, 0, 0x36D}, {ANDM, 0x080, 0, 0x080}, {STA, 0x07F, 0, 0x07F},
        {ADIM, 0x21, 1, 0x021}, {SBIM, 0x22, 15, 0x022}, {EORIM, 0x23, 1, 0x023}, {ORIM, 0x24, 8, 0x024},
        {ANDIM, 0x25, 14, 0x025}, {LDI, 0x26, 0, 0x026}, {DAA, 0x27, 0, 0x027}, {DAS, 0x28, 0, 0x028},
        {STA, 0x08F, 0, 0x08F}, {STA, 0x10F, 0, 0x10F}, {STA, 0x30F, 0, 0x30F}, {ANDIM, 0x0F, 0, 0x00F},
    };
    struct chain chains[sizeof kept / sizeof kept[0]];

    from("02, P7: every mnemonic that writes; every area at its ends; $00F's X in other banks is no $00F");
    fresh();
    for (unsigned at = 0; at < sizeof kept / sizeof kept[0]; at++) {
        put(at, made(kept[at].mnemonic, kept[at].first, kept[at].second));
        chains[at] = (struct chain){kept[at].cell, {at, NONE}};
    }
    build();
    TABLES_ARE("each under its cell", chains);
    ANSWERS(0x30F, 18, 19, NONE);
    ANSWERS(0x028, 15, 19, NONE);
}

static void kept_under_none(void)
{
    static const uint16_t words[] = {
        /* unlisted */
        0xCB80, 0xCBA0, 0xCDA0, 0xC820, 0xD120, 0xD401, 0xF020, 0xFFFE,
        /* 0 added, subtracted, exclusive or, or; and with 15; of a data cell and through $00F */
        0x4820, 0x5820, 0x6020, 0x6820, 0x77A0, 0x480F, 0x580F, 0x600F, 0x680F, 0x778F,
        /* ADC, ADD, LDA $020, ADI, SBI $20,1; LDA, ADI $0F */
        0x0020, 0x0820, 0x3820, 0x40A0, 0x50A0, 0x380F, 0x408F,
        /* STA $00E, $010, $011, $012, $000, $01F; LDI $10,5; DAA $10; ADIM $1E,1 */
        0x3C0E, 0x3C10, 0x3C11, 0x3C12, 0x3C00, 0x3C1F, 0x7A90, 0xCB10, 0x489E,
        /* STA $370, $377, ADCM $372: sound */
        0x3F70, 0x3F77, 0x0772,
        /* STA $170, $2FF, $349, $357, $36E, $36F, $378, $3FF, $18F: no cells */
        0x3D70, 0x3EFF, 0x3F49, 0x3F57, 0x3F6E, 0x3F6F, 0x3F78, 0x3FFF, 0x3D8F,
        /* BNZ, CALL $020, RTNW 2,0, RTNI, HALT, STOP, JMP $020, SHR, TJMP, NOP */
        0x8020, 0xC020, 0xD020, 0xD400, 0xD800, 0xDC00, 0xE020, 0xF000, 0xF7FF, 0xFFFF,
    };
    static const struct chain only[] = {{0x020, {0x800, NONE}}};

    from("02, P7: registers, sound cells, unmapped ones, unlisted words and what changes nothing are kept under none");
    fresh();
    for (unsigned at = 0; at < sizeof words / sizeof words[0]; at++)
        put(at, words[at]);
    build();
    tables_are("all 4,096", NULL, 0);
    put(0x800, made(STA, 0x020, 0));
    build();
    TABLES_ARE("but one", only);
    ANSWERS(0x020, 0x800, NONE);
    ANSWERS(0x036D, NONE);
}

/* Below $080: 8 memory forms, ADIM SBIM EORIM ORIM ANDIM with 15 immediates each, LDI with 16, DAA, DAS; as many
   through $00F. From $080 up only the memory forms can name a cell. */
static void counted_over_all_words(void)
{
    static unsigned words_under[SEARCH_NONE + 1];
    unsigned wrong = 0;

    from("reading 26, counted over all words by the cell that they are kept under");
    for (uint32_t word = 0; word <= 0xFFFF; word++)
        words_under[search_kept_under((uint16_t)word)]++;
    for (unsigned cell = 0; cell < 0x400; cell++) {
        bool near = (cell >= 0x020 && cell <= 0x07F) || cell == 0x00F;
        bool far = (cell >= 0x080 && cell <= 0x16F) || (cell >= 0x300 && cell <= 0x348)
                   || (cell >= 0x358 && cell <= 0x36D);

        wrong += words_under[cell] != (near ? 101 : far ? 8 : 0);
    }
    is("cells with another number of words", wrong, 0);
    is("kept under none: 65,536 - 97 x 101 - 335 x 8", words_under[SEARCH_NONE], 53059);
}

/* The same word 4,096 times: each address leads to the one after it. */
static void all_under_one(unsigned word, unsigned cell)
{
    unsigned wrong = 0;

    fresh();
    for (unsigned address = 0; address < 4096; address++)
        put(address, word);
    build();
    for (unsigned at = 0; at < NEXT; at++)
        wrong += tables[at] != (at == cell ? 0 : NONE);
    for (unsigned address = 0; address < 4096; address++)
        wrong += tables[NEXT + address] != address + 1;
    is("numbers that are wrong", wrong, 0);
    is("the longest answer", ask(0x020, 8192), 0);
    is("its bytes", (long long)answered_bytes, 8192);
    for (unsigned address = 0; address < 4096; address++)
        wrong += (unsigned)(answered[2 * address] << 8 | answered[2 * address + 1]) != address;
    is("addresses that are wrong", wrong, 0);
}

/* $020 has the writers $00A, $014 and $01E, $021 has $00F, and $019 writes through $00F; $032 is unlisted. */
static void five_writers(void)
{
    fresh();
    put(0x00A, made(STA, 0x020, 0));
    put(0x014, made(STA, 0x020, 0));
    put(0x01E, made(LDI, 0x20, 4));
    put(0x00F, made(STA, 0x021, 0));
    put(0x019, made(STA, 0x00F, 0));
    put(0x032, 0xC800);
    build();
}

static void replaced_by_each_kind(void)
{
    static const struct {
        const char *what;
        unsigned address, word;
        struct chain chains[4]; /* as many as there are; the cell of one that is not is 0 */
    } cases[] = {
        {"one in the middle goes to another cell", 0x014, 0x3C21,
         {{0x020, {0x00A, 0x01E, NONE}}, {0x021, {0x00F, 0x014, NONE}}, {0x00F, {0x019, NONE}}}},
        {"the first goes to another cell", 0x00A, 0x3C21,
         {{0x020, {0x014, 0x01E, NONE}}, {0x021, {0x00A, 0x00F, NONE}}, {0x00F, {0x019, NONE}}}},
        {"the last goes to another cell", 0x01E, 0x3C21,
         {{0x020, {0x00A, 0x014, NONE}}, {0x021, {0x00F, 0x01E, NONE}}, {0x00F, {0x019, NONE}}}},
        {"one goes to a cell that had none", 0x014, 0x3F6D,
         {{0x020, {0x00A, 0x01E, NONE}}, {0x021, {0x00F, NONE}}, {0x00F, {0x019, NONE}}, {0x36D, {0x014, NONE}}}},
        {"the only one goes to another cell", 0x00F, 0x3C20,
         {{0x020, {0x00A, 0x00F, 0x014, 0x01E, NONE}}, {0x00F, {0x019, NONE}}}},
        {"the first goes to none", 0x00A, 0xFFFF,
         {{0x020, {0x014, 0x01E, NONE}}, {0x021, {0x00F, NONE}}, {0x00F, {0x019, NONE}}}},
        {"one in the middle goes to none", 0x014, 0x3C10,
         {{0x020, {0x00A, 0x01E, NONE}}, {0x021, {0x00F, NONE}}, {0x00F, {0x019, NONE}}}},
        {"the last becomes unlisted", 0x01E, 0xCBA0,
         {{0x020, {0x00A, 0x014, NONE}}, {0x021, {0x00F, NONE}}, {0x00F, {0x019, NONE}}}},
        {"the only one comes to change nothing", 0x00F, 0x4821,
         {{0x020, {0x00A, 0x014, 0x01E, NONE}}, {0x00F, {0x019, NONE}}}},
        {"address 0 becomes the first", 0x000, 0xCD20,
         {{0x020, {0x000, 0x00A, 0x014, 0x01E, NONE}}, {0x021, {0x00F, NONE}}, {0x00F, {0x019, NONE}}}},
        {"the last address becomes the last", 0xFFF, 0x0421,
         {{0x020, {0x00A, 0x014, 0x01E, NONE}}, {0x021, {0x00F, 0xFFF, NONE}}, {0x00F, {0x019, NONE}}}},
        {"an unlisted word becomes a writer", 0x032, 0x3C20,
         {{0x020, {0x00A, 0x014, 0x01E, 0x032, NONE}}, {0x021, {0x00F, NONE}}, {0x00F, {0x019, NONE}}}},
        {"an unlisted word becomes another", 0x032, 0xFFFE,
         {{0x020, {0x00A, 0x014, 0x01E, NONE}}, {0x021, {0x00F, NONE}}, {0x00F, {0x019, NONE}}}},
        {"one between two", 0x013, 0x7820,
         {{0x020, {0x00A, 0x013, 0x014, 0x01E, NONE}}, {0x021, {0x00F, NONE}}, {0x00F, {0x019, NONE}}}},
        {"one comes to write through $00F", 0x014, 0x780F,
         {{0x020, {0x00A, 0x01E, NONE}}, {0x021, {0x00F, NONE}}, {0x00F, {0x014, 0x019, NONE}}}},
        {"the only one through $00F names a cell", 0x019, 0x3C21,
         {{0x020, {0x00A, 0x014, 0x01E, NONE}}, {0x021, {0x00F, 0x019, NONE}}}},
        {"none comes to write through $00F", 0xFFF, 0xCB0F,
         {{0x020, {0x00A, 0x014, 0x01E, NONE}}, {0x021, {0x00F, NONE}}, {0x00F, {0x019, 0xFFF, NONE}}}},
        {"the only one through $00F goes to none", 0x019, 0x480F,
         {{0x020, {0x00A, 0x014, 0x01E, NONE}}, {0x021, {0x00F, NONE}}}},
        {"another writer of the same cell", 0x014, 0x48A0,
         {{0x020, {0x00A, 0x014, 0x01E, NONE}}, {0x021, {0x00F, NONE}}, {0x00F, {0x019, NONE}}}},
        {"the same word", 0x014, 0x3C20,
         {{0x020, {0x00A, 0x014, 0x01E, NONE}}, {0x021, {0x00F, NONE}}, {0x00F, {0x019, NONE}}}},
        {"a display cell", 0x014, 0x3F00,
         {{0x020, {0x00A, 0x01E, NONE}}, {0x021, {0x00F, NONE}}, {0x00F, {0x019, NONE}}, {0x300, {0x014, NONE}}}},
        {"a sound cell", 0x014, 0x3F70,
         {{0x020, {0x00A, 0x01E, NONE}}, {0x021, {0x00F, NONE}}, {0x00F, {0x019, NONE}}}},
    };

    from("02, P7: replacing one word, each number worked out by hand");
    for (size_t at = 0; at < sizeof cases / sizeof cases[0]; at++) {
        uint8_t wanted[8192];
        size_t chains = 0;

        five_writers();
        memcpy(wanted, program, sizeof wanted);
        wanted[2 * cases[at].address] = (uint8_t)(cases[at].word >> 8);
        wanted[2 * cases[at].address + 1] = (uint8_t)cases[at].word;
        told = 99;
        is(cases[at].what, second_xref_replace(program, sizeof program, tables, NUMBERS + BEYOND, cases[at].address,
                                               (uint16_t)cases[at].word, &told), 0);
        is("value", (long long)told, 0);
        is("the words", memcmp(program, wanted, sizeof wanted), 0);
        while (chains < 4 && cases[at].chains[chains].cell != 0)
            chains++;
        tables_are(cases[at].what, cases[at].chains, chains);
    }
}

/* One word after another, so that a cell loses all its writers and gets them again in another order. */
static void replaced_again_and_again(void)
{
    static const struct chain away[] = {{0x00F, {0x019, NONE}}};
    static const struct chain back[] = {
        {0x020, {0x000, 0x00A, 0xFFF, NONE}}, {0x00F, {0x014, 0x019, NONE}}, {0x348, {0x00F, NONE}}};
    static const struct {
        unsigned address, word;
    } gone[] = {{0x014, 0xFFFF}, {0x00F, 0x3820}, {0x00A, 0xCB80}, {0x01E, 0x778F}},
      put_again[] = {{0xFFF, 0x3C20}, {0x00F, 0x3F48}, {0x000, 0x7FA0}, {0x014, 0x3C0F}, {0x00A, 0xCD20}};

    from("02, P7: replacements one after another");
    five_writers();
    for (size_t at = 0; at < sizeof gone / sizeof gone[0]; at++)
        is("one goes", second_xref_replace(program, sizeof program, tables, NUMBERS + BEYOND, gone[at].address,
                                           (uint16_t)gone[at].word, &told), 0);
    TABLES_ARE("only one through $00F is left", away);
    for (size_t at = 0; at < sizeof put_again / sizeof put_again[0]; at++)
        is("one comes", second_xref_replace(program, sizeof program, tables, NUMBERS + BEYOND, put_again[at].address,
                                            (uint16_t)put_again[at].word, &told), 0);
    TABLES_ARE("others are kept", back);
    ANSWERS(0x020, 0x000, 0x00A, 0x014, 0x019, 0xFFF, NONE);
    ANSWERS(0x348, 0x00F, 0x014, 0x019, NONE);
}

/* ---- Refusals of the cross-reference ---- */

static uint8_t program_then[8192];
static uint16_t tables_then[NUMBERS + BEYOND];

static void keep_as_lent(void)
{
    memcpy(program_then, program, sizeof program);
    memcpy(tables_then, tables, sizeof tables);
    told = 99;
}

static void is_as_lent(void)
{
    is("a word changed", memcmp(program, program_then, sizeof program) != 0, 0);
    is("a number changed", memcmp(tables, tables_then, sizeof tables) != 0, 0);
}

static void build_refused(size_t program_len, size_t tables_len, uint32_t number, uint64_t value)
{
    keep_as_lent();
    is("building", second_xref_build(program, program_len, tables, tables_len, &told), number);
    is("value", (long long)told, (long long)value);
    is_as_lent();
}

static void ask_refused(size_t program_len, size_t tables_len, uint32_t cell, size_t room, uint32_t number,
                        uint64_t value)
{
    keep_as_lent();
    memset(answered, 0xEE, sizeof answered);
    answered_bytes = 99;
    is("asking", second_xref_list(program, program_len, tables, tables_len, cell, answered, room, &answered_bytes,
                                  &told), number);
    is("value", (long long)told, (long long)value);
    is("bytes are left", (long long)answered_bytes, 99);
    is("addresses are left", answered[0], 0xEE);
    is_as_lent();
}

static void replace_refused(size_t program_len, size_t tables_len, uint32_t address, uint32_t number, uint64_t value)
{
    keep_as_lent();
    is("replacing", second_xref_replace(program, program_len, tables, tables_len, address, 0x3C21, &told), number);
    is("value", (long long)told, (long long)value);
    is_as_lent();
}

/* All refusals of a call apply at first; each that was told is then mended. */
static void cross_references_refused(void)
{
    from("02, P7: build, 1 then 7 with the numbers needed");
    five_writers();
    put(0x000, made(STA, 0x16F, 0));
    build_refused(8191, 5119, 1, 8191);
    build_refused(0, 0, 1, 0);
    build_refused(4096, 5120, 1, 4096);
    build_refused(8192, 5119, 7, 5120);
    build_refused(8192, 0, 7, 5120);
    from("02, P7: answer, 1 then 8 then 29 then 7 with the bytes needed");
    ask_refused(8190, 5119, 0x370, 0, 1, 8190);
    ask_refused(8192, 5119, 0x370, 0, 8, 0x370);
    ask_refused(8192, 5119, 0x00F, 8192, 8, 0x00F);
    ask_refused(8192, 5119, 0x10020, 8192, 8, 0x10020);
    ask_refused(8192, 5120, 0xFFFFFFFF, 8192, 8, 0xFFFFFFFF);
    ask_refused(8192, 5119, 0x020, 7, 29, 0);
    ask_refused(8192, 5120, 0x020, 7, 29, 0);
    put(0x000, 0xFFFF);
    ask_refused(8192, 5119, 0x020, 8192, 29, 0);
    ask_refused(8192, 0, 0x020, 8192, 29, 0);
    ask_refused(8192, 5120, 0x020, 7, 7, 8);
    ask_refused(8192, 5123, 0x36D, 0, 7, 2);
    is("done", second_xref_list(program, 8192, tables, 5120, 0x020, answered, 8, &answered_bytes, &told), 0);
    is("its bytes", (long long)answered_bytes, 8);
    from("02, P7: replacing, 1 then 13 then 29");
    put(0x000, made(STA, 0x16F, 0));
    replace_refused(8193, 5119, 4096, 1, 8193);
    replace_refused(8192, 5119, 4096, 13, 0);
    replace_refused(8192, 5120, 0x10000, 13, 0);
    replace_refused(8192, 5120, 0x1000A, 13, 0);
    replace_refused(8192, 5120, 0xFFFFFFFF, 13, 0);
    replace_refused(8192, 5119, 4095, 29, 0);
    replace_refused(8192, 5120, 4095, 29, 0);
    replace_refused(8192, 5120, 0x000, 29, 0); /* though the word that does not match is the one to go */
    put(0x000, 0xFFFF);
    replace_refused(8192, 4096, 4095, 29, 0);
    replace_refused(8192, 5120, 4096, 13, 0);
    is("done", second_xref_replace(program, 8192, tables, 5120, 4095, 0x3C21, &told), 0);
    is("value", (long long)told, 0);
    is("the last number", tables[NEXT + 0x00F], 4095);
}

static void tables_that_do_not_match(void)
{
    static const uint16_t places[] = {0x000, 0x00E, 0x00F, 0x020, 0x021, 0x022, 0x16F, 0x370, 0x3FF, NEXT, NEXT + 0x00A,
                                      NEXT + 0x014, NEXT + 0x019, NEXT + 0x01E, NEXT + 0x032, NEXT + 4095};
    static const uint16_t others[] = {0, 1, 0x00A, 4095, 4097, 0x8000, 0xFFFF};

    from("02, P7: 29 where a number is not the fresh one");
    five_writers();
    for (size_t at = 0; at < sizeof places / sizeof places[0]; at++) {
        uint16_t right = tables[places[at]];

        for (size_t other = 0; other < sizeof others / sizeof others[0]; other++) {
            if (others[other] == right)
                continue;
            tables[places[at]] = others[other];
            ask_refused(8192, 5120, 0x036D, 8192, 29, 0);
            replace_refused(8192, 5123, 0x100, 29, 0);
        }
        tables[places[at]] = right;
    }
    from("02, P7: numbers beyond the 5,120 are not looked at");
    tables[NUMBERS] = 0;
    is("asking", ask(0x020, 8192), 0);
    from("02, P7: another program with the same writers matches, one with others does not");
    put(0x014, made(DAA, 0x20, 0));
    put(0x019, made(LDI, 0x0F, 9));
    put(0x032, 0xFFFF);
    put(0x033, made(LDA, 0x020, 0));
    put(0x034, 0xFFFE);
    ANSWERS(0x020, 0x00A, 0x014, 0x019, 0x01E, NONE);
    put(0x034, made(STA, 0x022, 0));
    ask_refused(8192, 5120, 0x020, 8192, 29, 0);
    put(0x034, 0xFFFF);
    put(0x00F, 0xFFFF);
    replace_refused(8192, 5120, 0x00F, 29, 0); /* though the new word is the one that was there */
}

static void cross_references(void)
{
    kept_under_cells();
    every_kind_of_writer();
    kept_under_none();
    counted_over_all_words();
    from("02, P7: 4,096 writers of one cell");
    all_under_one(made(STA, 0x020, 0), 0x020);
    from("02, P7: 4,096 writers through $00F");
    all_under_one(made(STA, 0x00F, 0), 0x00F);
    replaced_by_each_kind();
    replaced_again_and_again();
    cross_references_refused();
    tables_that_do_not_match();
}

/* ---- Many programs ---- */

static uint32_t seed = 1;

static unsigned any(unsigned below)
{
    seed = seed * 1664525u + 1013904223u;
    return (seed >> 16) % below;
}

/* Words that keep a program busy with the cells that do something, rather than lost in data. */
static unsigned any_word(void)
{
    static const uint8_t lively[] = {0x00, 0x01, 0x02, 0x03, 0x04, 0x05, 0x07, 0x08, 0x09, 0x0A, 0x0B, 0x0C, 0x0E, 0x0F,
                                     0x10, 0x11, 0x12, 0x13, 0x14, 0x16, 0x17, 0x18, 0x1A, 0x1B, 0x1C, 0x1D, 0x1E,
                                     0x20};
    unsigned cell = lively[any(sizeof lively)];

    switch (any(8)) {
    case 0:
        return any(0x10000);
    case 1:
        return any(8) << 11 | any(2) << 10 | cell;
    case 2:
    case 3:
        return (8 + any(8)) << 11 | any(16) << 7 | cell;
    case 4:
        return 0x8000 | any(0x4800);
    case 5:
        return (any(2) ? 0xCB00 : 0xCD00) | cell;
    case 6: {
        static const uint16_t rest[] = {0xD400, 0xD800, 0xDC00, 0xF000, 0xF7FF, 0xFFFF, 0xD0A5};

        return rest[any(7)];
    }
    default:
        return 0xE000 | any(0x1000);
    }
}

/* A run is its steps one by one, and every state on the way can be lent again (01, Events; What is lent). */
static void many_programs(void)
{
    enum { PROGRAMS = 300, EVENTS = 400 };
    uint8_t script[EVENTS];
    uint8_t memory_then[1024], record_then[45];
    unsigned differ = 0, not_lendable = 0, wrong_count = 0, wrong_reason = 0;

    from("01, a run is its events in order");
    for (int programs = 0; programs < PROGRAMS; programs++) {
        uint32_t stop = any(4) ? NO_STOP : any(4096);
        uint32_t run_answer, step_reason = 2;
        uint64_t steps = 0;

        fresh_with(any(8));
        for (unsigned address = 0; address < 4096; address++)
            put(address, any_word());
        for (int at = 0; at < EVENTS; at++) {
            unsigned kind = any(16);

            script[at] = kind < 9 ? CYCLE : kind < 11 ? SOUND_CLOCK : kind < 12 ? BASE_PULSE : kind < 13 ? WATCHDOG_PULSE
                         : any(60) ? (uint8_t)(0x10 + any(0x40)) : RESET_PIN;
        }
        for (unsigned address = 0x020; address < 0x170; address++)
            memory[address] = (uint8_t)any(16);
        memory[0x000] = (uint8_t)any(16);
        memory[0x002] = (uint8_t)any(16);
        memory[0x003] = (uint8_t)any(16);
        for (unsigned address = 0x371; address <= 0x377; address++)
            memory[address] = (uint8_t)any(16);
        set_two(R_PC, any(4096));
        record[R_T0_COUNTER] = 250;
        set_two(R_WATCHDOG, 1 + any(40));
        if (any(2))
            set_frozen((uint8_t)any(16));
        memcpy(memory_then, memory, sizeof memory);
        memcpy(record_then, record, sizeof record);
        for (int at = 0; at < EVENTS; at++) {
            uint32_t refusal = step(script[at]);

            if (refusal == 6) {
                step_reason = 1;
                break;
            }
            if (refusal != 0)
                not_lendable++;
            steps++;
            if (script[at] == CYCLE && two(R_PC) == stop) {
                step_reason = 0;
                break;
            }
        }
        uint8_t memory_by_steps[1024], record_by_steps[45];
        memcpy(memory_by_steps, memory, sizeof memory);
        memcpy(record_by_steps, record, sizeof record);
        memcpy(memory, memory_then, sizeof memory);
        memcpy(record, record_then, sizeof record);
        run_answer = run(script, EVENTS, stop);
        wrong_reason += reason != step_reason || run_answer != (step_reason == 1 ? 6u : 0u);
        wrong_count += done_events != steps;
        differ += memcmp(memory, memory_by_steps, sizeof memory) != 0
                  || memcmp(record, record_by_steps, sizeof record) != 0;
    }
    is("runs that leave another state than their steps", differ, 0);
    is("runs with another reason", wrong_reason, 0);
    is("runs with another count", wrong_count, 0);
    is("states that can't be lent again", not_lendable, 0);
}

/* Two cars are their steps one by one, each its own, however their entries are shuffled (02, P5). */
static void many_pairs(void)
{
    enum { PROGRAMS = 300, ENTRIES = 400 };
    static const uint32_t unstopped = 2;
    uint8_t script[2 * ENTRIES], picture[5];
    unsigned differ = 0, wrong_count = 0, wrong_reason = 0, refused = 0;

    from("02, P5: what a car comes to is what its own entries make of it");
    for (int programs = 0; programs < PROGRAMS; programs++) {
        uint32_t stop[2] = {any(4) ? NO_STOP : any(4096), any(4) ? NO_STOP : any(4096)};
        uint32_t wanted[2] = {unstopped, unstopped};
        uint8_t memory_by_steps[2][1024], record_by_steps[2][45];
        uint64_t entries = 0, count;
        unsigned share = 1 + any(7);

        two_fresh();
        for (unsigned address = 0; address < 4096; address++)
            put(address, any_word());
        for (int at = 0; at < ENTRIES; at++) {
            unsigned kind = any(16);

            script[2 * at] = any(8) < share;
            script[2 * at + 1] = kind < 12 ? CYCLE : kind < 13 ? SOUND_CLOCK : any(30) ? (uint8_t)(0x10 + any(0x40))
                                 : RESET_PIN;
        }
        for (int at = 0; at < 2; at++) {
            for (unsigned address = 0x300; address <= 0x348; address++)
                car[at].memory[address] = (uint8_t)any(16);
            car[at].memory[0x000] = (uint8_t)any(16);
            car[at].memory[0x007] = (uint8_t)any(8);
            set_pc_of(at, any(4096));
            memcpy(memory_by_steps[at], car[at].memory, sizeof memory);
            memcpy(record_by_steps[at], car[at].record, sizeof record);
        }
        while (entries < ENTRIES && (wanted[0] == unstopped || wanted[1] == unstopped)) {
            int at = script[2 * entries];
            uint8_t event = script[2 * entries + 1];

            entries++;
            if (wanted[at] != unstopped)
                continue;
            if (second_step(program, 8192, memory_by_steps[at], 1024, record_by_steps[at], 45, event, &told) == 6)
                wanted[at] = 1;
            else if (event == CYCLE && (uint32_t)(record_by_steps[at][0] << 8 | record_by_steps[at][1]) == stop[at])
                wanted[at] = 0;
        }
        refused += run_two(script, sizeof script, stop[0], stop[1]) != 0;
        wrong_count += entries_read != entries;
        for (int at = 0; at < 2; at++) {
            memset(picture, 0xEE, sizeof picture);
            (void)second_picture(memory_by_steps[at], 1024, record_by_steps[at], 45, lamps, sizeof lamps, picture, 5,
                                 &count, &told);
            wrong_reason += reason_of[at] != wanted[at];
            differ += memcmp(car[at].memory, memory_by_steps[at], sizeof memory) != 0
                      || memcmp(car[at].record, record_by_steps[at], sizeof record) != 0
                      || memcmp(car[at].picture, picture, sizeof picture) != 0;
        }
    }
    is("runs refused", refused, 0);
    is("cars that end in another state or picture than by their steps", differ, 0);
    is("cars with another reason", wrong_reason, 0);
    is("runs with another count", wrong_count, 0);
}

/* Words that name one of four cells, $00F, or none that can be asked about. */
static const uint16_t four_cells[4] = {0x020, 0x021, 0x300, 0x36D};

static unsigned any_word_of_four(void)
{
    static const uint8_t near[] = {0x20, 0x21, 0x0F, 0x10};
    static const uint16_t rest[] = {0xFFFF, 0xCB80, 0xC820, 0xE020, 0x3F70};

    switch (any(4)) {
    case 0:
        return any(16) << 10 | (any(4) ? four_cells[any(4)] : 0x00F);
    case 1:
        return (8 + any(8)) << 11 | any(16) << 7 | near[any(4)];
    case 2:
        return (any(2) ? 0xCB00 : 0xCD00) | near[any(4)];
    default:
        return rest[any(5)];
    }
}

/* What such a word is kept under, by which of the four it changes. */

static uint16_t kept_by_changes(uint16_t word)
{
    unsigned changed = 0;
    uint16_t cell = NONE;

    for (int at = 0; at < 4; at++)
        if (search_changes(word, four_cells[at])) {
            changed++;
            cell = four_cells[at];
        }
    return changed == 4 ? 0x00F : changed == 1 ? cell : NONE;
}

static uint16_t kept_at[4096];

/* A table's number by looking upwards from its place: t[k] is the lowest address kept under k, t[1024 + a] the next
   one above a. */
static uint16_t lowest_from(unsigned address, uint16_t cell)
{
    while (address < 4096 && kept_at[address] != cell)
        address++;
    return (uint16_t)address;
}

static unsigned numbers_that_differ(void)
{
    unsigned differ = 0;

    for (uint16_t cell = 0; cell < NEXT; cell++)
        differ += tables[cell] != lowest_from(0, cell);
    for (unsigned address = 0; address < 4096; address++)
        differ += tables[NEXT + address]
                  != (kept_at[address] == NONE ? NONE : lowest_from(address + 1, kept_at[address]));
    return differ;
}

static unsigned answers_that_differ(void)
{
    uint8_t listed[8192];
    uint64_t count;
    unsigned differ = 0;

    for (int at = 0; at < 4; at++) {
        memset(listed, 0xEE, sizeof listed);
        count = 99;
        (void)second_list(program, 8192, four_cells[at], listed, sizeof listed, &count, &told);
        differ += ask(four_cells[at], sizeof answered) != 0 || answered_bytes != count
                  || memcmp(answered, listed, sizeof listed) != 0;
    }
    return differ;
}

/* Tables are what looking upwards gives, at first and after each replacement; an answer is the list (02, P7). */
static void many_cross_references(void)
{
    enum { PROGRAMS = 40, POOL = 40, REPLACEMENTS = 15 };
    uint16_t pool[POOL], kept[POOL];
    unsigned differ = 0, wrong_answers = 0, refused = 0;

    from("02, P7: tables of drawn programs, at first and after each replacement");
    for (int programs = 0; programs < PROGRAMS; programs++) {
        unsigned drawn = programs % 4 == 0 ? 2 : POOL;

        for (int at = 0; at < POOL; at++) {
            pool[at] = (uint16_t)any_word_of_four();
            kept[at] = kept_by_changes(pool[at]);
        }
        fresh();
        for (unsigned address = 0; address < 4096; address++) {
            unsigned at = any(drawn);

            put(address, pool[at]);
            kept_at[address] = kept[at];
        }
        build();
        differ += numbers_that_differ();
        for (int times = 0; times < REPLACEMENTS; times++) {
            unsigned at = any(POOL), address = any(8) ? any(4096) : any(2) * 4095;

            refused += second_xref_replace(program, 8192, tables, NUMBERS + BEYOND, address, pool[at], &told) != 0;
            kept_at[address] = kept[at];
            differ += numbers_that_differ();
        }
        wrong_answers += answers_that_differ();
    }
    is("replacements refused", refused, 0);
    is("numbers that differ", differ, 0);
    is("answers that are not the list", wrong_answers, 0);
}

int main(void)
{
    twelve_numbers();
    words();
    arithmetic();
    branches();
    stack();
    pointer();
    cells();
    ports();
    timer0();
    base_timer();
    watchdog();
    resets();
    interrupts();
    asleep();
    rom_read();
    edges();
    sound();
    halves();
    decimal_adjust();
    runs();
    memory_refusals();
    record_refusals();
    call_refusals();
    writers();
    levels();
    pictures();
    books();
    listings();
    two_cars();
    cross_references();
    many_programs();
    many_pairs();
    many_cross_references();
    printf("%lu passed, %lu failed\n", passed, failed);
    return failed == 0 ? EXIT_SUCCESS : EXIT_FAILURE;
}
