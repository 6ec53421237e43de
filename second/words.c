/* Prints every 16-bit word on a line of its own: taken apart and put together again, or named as unlisted.
   It fails when the count of listed words is not the one document 01 states. */
#include "instruction.h"

#include <stdio.h>
#include <stdlib.h>

enum { LISTED_WORDS = 55814 };

static void print_fields(const struct instruction *instruction)
{
    unsigned first = instruction->field[0];
    unsigned second = instruction->field[1];

    switch (instruction_shape(instruction->mnemonic)) {
    case SHAPE_BANKED:
    case SHAPE_TARGET:
        printf(" %03X", first);
        break;
    case SHAPE_IMMEDIATE:
        printf(" %02X %X", first, second);
        break;
    case SHAPE_DECIMAL:
        printf(" %02X", first);
        break;
    case SHAPE_CONSTANT:
        printf(" %X %X", first, second);
        break;
    case SHAPE_BARE:
        break;
    }
}

int main(void)
{
    unsigned listed = 0;

    for (uint32_t word = 0; word <= 0xFFFF; word++) {
        struct instruction instruction;
        uint16_t again;
        uint64_t value;
        uint32_t refusal = instruction_read((uint16_t)word, &instruction, &value);

        if (refusal != 0) {
            printf("%04X unlisted %u %04X\n", (unsigned)word, (unsigned)refusal, (unsigned)value);
            continue;
        }
        listed++;
        printf("%04X %s", (unsigned)word, instruction_name(instruction.mnemonic));
        print_fields(&instruction);
        if (instruction_write(&instruction, &again, &value) != 0)
            return EXIT_FAILURE;
        printf(" %04X\n", (unsigned)again);
    }
    if (fflush(stdout) != 0 || ferror(stdout))
        return EXIT_FAILURE;
    return listed == LISTED_WORDS ? EXIT_SUCCESS : EXIT_FAILURE;
}
