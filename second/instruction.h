/* The instruction words of the SH67P54: a word taken apart into its mnemonic and fields, and put together again. */
#ifndef SECOND_INSTRUCTION_H
#define SECOND_INSTRUCTION_H

#include <stdint.h>

enum mnemonic {
    ADC, ADCM, ADD, ADDM, SBC, SBCM, SUB, SUBM, EOR, EORM, OR, ORM, AND, ANDM, LDA, STA,
    ADI, ADIM, SBI, SBIM, EORIM, ORIM, ANDIM, LDI,
    BNZ, BNC, BAZ, BC, BA0, BA1, BA2, BA3, CALL,
    DAA, DAS, RTNW, RTNI, HALT, STOP, JMP, SHR, TJMP, NOP,
    MNEMONICS
};

enum shape {
    SHAPE_BANKED,    /* one field: bank x 128 + X */
    SHAPE_IMMEDIATE, /* X, then the immediate */
    SHAPE_TARGET,    /* one field: the target */
    SHAPE_DECIMAL,   /* one field: X */
    SHAPE_CONSTANT,  /* high nibble, then low nibble */
    SHAPE_BARE       /* no field */
};

struct instruction {
    enum mnemonic mnemonic;
    uint32_t field[2]; /* wider than any field, so that one out of range can be told; 0 where there is none */
};

const char *instruction_name(enum mnemonic mnemonic);
enum shape instruction_shape(enum mnemonic mnemonic);

/* Answers 0, or 6 for an unlisted word, with the word in *value. */
uint32_t instruction_read(uint16_t word, struct instruction *instruction, uint64_t *value);

/* Answers 0, or 13 for a field out of range, with 0 in *value; a refusal leaves *word. */
uint32_t instruction_write(const struct instruction *instruction, uint16_t *word, uint64_t *value);

#endif
