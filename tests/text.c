/* The desk's instructions as text, for all 65,536 words: the library's line of each against the second emulator's
   reading of the word, and each instruction assembled again by the desk, which has its mnemonics from those lines. */
#include "../desk/mnemonics.h"
#include "../desk/texts.h"
#include "../second/instruction.h"

#include <ctype.h>
#include <stdio.h>
#include <stdlib.h>
#include <string.h>

enum { HALF = 2048, SOURCE_ROOM = 32 };

static unsigned long passed, failed;

static void check(bool holds, unsigned word, const char *what, const char *text)
{
    if (holds) {
        passed++;
        return;
    }
    failed++;
    if (failed < 20)
        printf("FAILED %04X: %s: %s\n", word, what, text);
}

/* The line that the second emulator's reading of the word asks for. */
static void wanted_line(const struct instruction *instruction, unsigned address, unsigned word,
                        char wanted[SOURCE_ROOM])
{
    const char *name = instruction_name(instruction->mnemonic);
    unsigned first = instruction->field[0], second = instruction->field[1];

    switch (instruction_shape(instruction->mnemonic)) {
    case SHAPE_BANKED: case SHAPE_TARGET: case SHAPE_DECIMAL:
        snprintf(wanted, SOURCE_ROOM, "%03X %04X %s %03X", address, word, name, first);
        break;
    case SHAPE_IMMEDIATE:
        snprintf(wanted, SOURCE_ROOM, "%03X %04X %s %03X %X", address, word, name, first, second);
        break;
    case SHAPE_CONSTANT:
        snprintf(wanted, SOURCE_ROOM, "%03X %04X %s %X %X", address, word, name, first, second);
        break;
    case SHAPE_BARE:
        snprintf(wanted, SOURCE_ROOM, "%03X %04X %s", address, word, name);
        break;
    }
}

/* The same for the assembler, in which a branch names an address in its own half; odd words in small letters. */
static void source_line(const struct instruction *instruction, unsigned address, unsigned word,
                        char source[SOURCE_ROOM])
{
    const char *name = instruction_name(instruction->mnemonic);
    unsigned first = instruction->field[0], second = instruction->field[1];

    switch (instruction_shape(instruction->mnemonic)) {
    case SHAPE_TARGET:
        if (instruction->mnemonic != JMP)
            first |= address & HALF;
        /* fall through */
    case SHAPE_BANKED: case SHAPE_DECIMAL:
        snprintf(source, SOURCE_ROOM, "%s $%X\n", name, first);
        break;
    case SHAPE_IMMEDIATE:
        snprintf(source, SOURCE_ROOM, "%s $%03X, %u\n", name, first, second);
        break;
    case SHAPE_CONSTANT:
        snprintf(source, SOURCE_ROOM, "%s %u,%u\n", name, first, second);
        break;
    case SHAPE_BARE:
        snprintf(source, SOURCE_ROOM, "%s\n", name);
        break;
    }
    for (char *at = source; word % 2 == 1 && *at != '\0'; at++)
        *at = (char)tolower((unsigned char)*at);
}

static bool names_pointer(const struct instruction *instruction)
{
    enum shape shape = instruction_shape(instruction->mnemonic);

    return (shape == SHAPE_BANKED || shape == SHAPE_IMMEDIATE || shape == SHAPE_DECIMAL) && instruction->field[0] == 0x0F;
}

/* A word at its place in one of the sixteen listings, and its line of a source. */
static void one_word(unsigned address, unsigned word, const char *line, char source[SOURCE_ROOM])
{
    struct instruction instruction;
    char wanted[SOURCE_ROOM];
    uint64_t value;
    bool listed = instruction_read((uint16_t)word, &instruction, &value) == 0;

    if (listed) {
        wanted_line(&instruction, address, word, wanted);
        source_line(&instruction, address, word, source);
    } else {
        snprintf(wanted, SOURCE_ROOM, "%03X %04X DATA", address, word);
        snprintf(source, SOURCE_ROOM, "DW $%04X\n", word);
    }
    check(strcmp(line, wanted) == 0, word, "line", line);
    check(is_data(line) == !listed, word, "listed", line);
    if (!listed)
        check(*first_operand(line) == '\0', word, "operand", line);
    else if (instruction_shape(instruction.mnemonic) != SHAPE_TARGET)
        check((strncmp(first_operand(line), "00F", 3) == 0) == names_pointer(&instruction), word, "pointer", line);
}

/* What the desk has learned: these mnemonics and no others, and of each what it takes. */
static void all_forms(void)
{
    const struct mnemonics *known = chip_mnemonics();
    static const struct {
        int count;
        struct operand operand[OPERANDS_MOST];
    } wanted[] = {
        [SHAPE_BANKED] = {1, {{3, 0x3FF}}}, [SHAPE_IMMEDIATE] = {2, {{3, 0x7F}, {1, 0xF}}},
        [SHAPE_TARGET] = {1, {{3, 0x7FF}}}, [SHAPE_DECIMAL] = {1, {{3, 0x7F}}},
        [SHAPE_CONSTANT] = {2, {{1, 0xF}, {1, 0xF}}}, [SHAPE_BARE] = {0},
    };

    check(known->forms == MNEMONICS, 0, "how many mnemonics", "");
    for (int mnemonic = 0; mnemonic < MNEMONICS; mnemonic++) {
        const char *name = instruction_name((enum mnemonic)mnemonic);
        const struct form *form = form_named(known, name, strlen(name));
        enum shape shape = instruction_shape((enum mnemonic)mnemonic);

        check(form != NULL && form->count == wanted[shape].count, (unsigned)mnemonic, "operands", name);
        for (int place = 0; form != NULL && place < form->count; place++) {
            unsigned most = mnemonic == JMP ? 0xFFF : wanted[shape].operand[place].most;

            check(form->operand[place].digits == wanted[shape].operand[place].digits, (unsigned)mnemonic, "digits",
                  name);
            check(form->operand[place].most == most, (unsigned)mnemonic, "largest", name);
        }
    }
    check(form_named(known, "DATA", 4) == NULL, 0, "a mnemonic", "DATA");
}

int main(void)
{
    static char source[GALHOVEIA_WORDS * SOURCE_ROOM];
    static struct lines lines;

    all_forms();
    for (unsigned first = 0; first < WORDS_ALL; first += GALHOVEIA_WORDS) {
        struct bytes program;
        char *end = source;

        list_words(first, &lines);
        for (unsigned address = 0; address < GALHOVEIA_WORDS; address++) {
            one_word(address, first + address, lines.at[address], end);
            end += strlen(end);
        }
        program = program_from_text("the words", source);
        for (unsigned address = 0; address < GALHOVEIA_WORDS; address++) {
            const uint8_t *made = program.at + 2 * address;

            check((unsigned)(made[0] << 8 | made[1]) == first + address, first + address, "assembled again",
                  lines.at[address]);
        }
        give_back(program.at);
    }
    printf("%lu passed, %lu failed\n", passed, failed);
    return failed == 0 ? EXIT_SUCCESS : EXIT_FAILURE;
}
