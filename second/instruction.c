/* Reading and writing instruction words. Reading follows the ranges of document 01, writing follows the bit
   patterns printed in section 17 of document 003, so that each checks the other. */
#include "instruction.h"

#include <stdbool.h>

/* The patterns are kept as they are printed, blanks included, so that they can be held against the page.
   RTNW's low nibble is printed with capital I; it is l here because i is the immediate. */
static const struct {
    const char *name;
    const char *pattern;
} printed[MNEMONICS] = {
    [ADC]   = {"ADC",   "00000 0bbb xxx xxxx"},
    [ADCM]  = {"ADCM",  "00000 1bbb xxx xxxx"},
    [ADD]   = {"ADD",   "00001 0bbb xxx xxxx"},
    [ADDM]  = {"ADDM",  "00001 1bbb xxx xxxx"},
    [SBC]   = {"SBC",   "00010 0bbb xxx xxxx"},
    [SBCM]  = {"SBCM",  "00010 1bbb xxx xxxx"},
    [SUB]   = {"SUB",   "00011 0bbb xxx xxxx"},
    [SUBM]  = {"SUBM",  "00011 1bbb xxx xxxx"},
    [EOR]   = {"EOR",   "00100 0bbb xxx xxxx"},
    [EORM]  = {"EORM",  "00100 1bbb xxx xxxx"},
    [OR]    = {"OR",    "00101 0bbb xxx xxxx"},
    [ORM]   = {"ORM",   "00101 1bbb xxx xxxx"},
    [AND]   = {"AND",   "00110 0bbb xxx xxxx"},
    [ANDM]  = {"ANDM",  "00110 1bbb xxx xxxx"},
    [LDA]   = {"LDA",   "00111 0bbb xxx xxxx"},
    [STA]   = {"STA",   "00111 1bbb xxx xxxx"},
    [ADI]   = {"ADI",   "01000 iiii xxx xxxx"},
    [ADIM]  = {"ADIM",  "01001 iiii xxx xxxx"},
    [SBI]   = {"SBI",   "01010 iiii xxx xxxx"},
    [SBIM]  = {"SBIM",  "01011 iiii xxx xxxx"},
    [EORIM] = {"EORIM", "01100 iiii xxx xxxx"},
    [ORIM]  = {"ORIM",  "01101 iiii xxx xxxx"},
    [ANDIM] = {"ANDIM", "01110 iiii xxx xxxx"},
    [LDI]   = {"LDI",   "01111 iiii xxx xxxx"},
    [BNZ]   = {"BNZ",   "10000 xxxx xxx xxxx"},
    [BNC]   = {"BNC",   "10001 xxxx xxx xxxx"},
    [BAZ]   = {"BAZ",   "10010 xxxx xxx xxxx"},
    [BC]    = {"BC",    "10011 xxxx xxx xxxx"},
    [BA0]   = {"BA0",   "10100 xxxx xxx xxxx"},
    [BA1]   = {"BA1",   "10101 xxxx xxx xxxx"},
    [BA2]   = {"BA2",   "10110 xxxx xxx xxxx"},
    [BA3]   = {"BA3",   "10111 xxxx xxx xxxx"},
    [CALL]  = {"CALL",  "11000 xxxx xxx xxxx"},
    [DAA]   = {"DAA",   "11001 0110 xxx xxxx"},
    [DAS]   = {"DAS",   "11001 1010 xxx xxxx"},
    [RTNW]  = {"RTNW",  "11010 000h hhh llll"},
    [RTNI]  = {"RTNI",  "11010 1000 000 0000"},
    [HALT]  = {"HALT",  "11011 0000 000 0000"},
    [STOP]  = {"STOP",  "11011 1000 000 0000"},
    [JMP]   = {"JMP",   "1110p xxxx xxx xxxx"},
    [SHR]   = {"SHR",   "11110 0000 000 0000"},
    [TJMP]  = {"TJMP",  "11110 1111 111 1111"},
    [NOP]   = {"NOP",   "11111 1111 111 1111"},
};

const char *instruction_name(enum mnemonic mnemonic)
{
    return printed[mnemonic].name;
}

enum shape instruction_shape(enum mnemonic mnemonic)
{
    if (mnemonic <= STA)
        return SHAPE_BANKED;
    if (mnemonic <= LDI)
        return SHAPE_IMMEDIATE;
    if (mnemonic <= CALL || mnemonic == JMP)
        return SHAPE_TARGET;
    if (mnemonic == DAA || mnemonic == DAS)
        return SHAPE_DECIMAL;
    if (mnemonic == RTNW)
        return SHAPE_CONSTANT;
    return SHAPE_BARE;
}

static bool within(uint16_t word, uint16_t first, uint16_t last)
{
    return first <= word && word <= last;
}

uint32_t instruction_read(uint16_t word, struct instruction *instruction, uint64_t *value)
{
    static const enum mnemonic banked[8][2] = {
        {ADC, ADCM}, {ADD, ADDM}, {SBC, SBCM}, {SUB, SUBM}, {EOR, EORM}, {OR, ORM}, {AND, ANDM}, {LDA, STA}};
    static const enum mnemonic immediate[8] = {ADI, ADIM, SBI, SBIM, EORIM, ORIM, ANDIM, LDI};
    static const enum mnemonic branch[8] = {BNZ, BNC, BAZ, BC, BA0, BA1, BA2, BA3};

    unsigned code = word >> 11;
    struct instruction read = {NOP, {0, 0}};

    *value = 0;
    if (code < 8) {
        read.mnemonic = banked[code][word >> 10 & 1];
        read.field[0] = 128u * (word >> 7 & 7) + (word & 127);
    } else if (code < 16) {
        read.mnemonic = immediate[code - 8];
        read.field[0] = word & 127;
        read.field[1] = word >> 7 & 15;
    } else if (code < 24) {
        read.mnemonic = branch[code - 16];
        read.field[0] = word & 0x7FF;
    } else if (within(word, 0xC000, 0xC7FF)) {
        read.mnemonic = CALL;
        read.field[0] = word - 0xC000u;
    } else if (within(word, 0xCB00, 0xCB7F)) {
        read.mnemonic = DAA;
        read.field[0] = word - 0xCB00u;
    } else if (within(word, 0xCD00, 0xCD7F)) {
        read.mnemonic = DAS;
        read.field[0] = word - 0xCD00u;
    } else if (within(word, 0xD000, 0xD0FF)) {
        read.mnemonic = RTNW;
        read.field[0] = word >> 4 & 15;
        read.field[1] = word & 15;
    } else if (word == 0xD400) {
        read.mnemonic = RTNI;
    } else if (word == 0xD800) {
        read.mnemonic = HALT;
    } else if (word == 0xDC00) {
        read.mnemonic = STOP;
    } else if (within(word, 0xE000, 0xEFFF)) {
        read.mnemonic = JMP;
        read.field[0] = word - 0xE000u;
    } else if (word == 0xF000) {
        read.mnemonic = SHR;
    } else if (word == 0xF7FF) {
        read.mnemonic = TJMP;
    } else if (word == 0xFFFF) {
        read.mnemonic = NOP;
    } else {
        *value = word;
        return 6;
    }
    *instruction = read;
    return 0;
}

/* Which of the two fields a letter of a pattern draws its bits from. Bank and X, and page and X, stand side by
   side in every pattern that has both, so each pair is one number. */
static int field_of(char letter)
{
    switch (letter) {
    case 'b': case 'x': case 'p': case 'h':
        return 0;
    case 'i': case 'l':
        return 1;
    default:
        return -1;
    }
}

uint32_t instruction_write(const struct instruction *instruction, uint16_t *word, uint64_t *value)
{
    const char *pattern = printed[instruction->mnemonic].pattern;
    uint32_t left[2] = {instruction->field[0], instruction->field[1]};
    bool has[2] = {false, false};
    uint32_t made = 0;
    int bit = 0;
    int end = 0;

    while (pattern[end] != '\0')
        end++;
    for (int place = end - 1; place >= 0; place--) {
        int field = field_of(pattern[place]);

        if (pattern[place] == ' ')
            continue;
        if (field < 0) {
            made |= (uint32_t)(pattern[place] == '1') << bit;
        } else {
            made |= (left[field] & 1) << bit;
            left[field] >>= 1;
            has[field] = true;
        }
        bit++;
    }
    *value = 0;
    for (int field = 0; field < 2; field++)
        if (has[field] && left[field] != 0)
            return 13;
    *word = (uint16_t)made;
    return 0;
}
