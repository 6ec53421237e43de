/* Programs on paper (02, P3). The writer takes each word apart by the ranges of document 01. The reader goes the other
   way: it takes a line apart into its items, finds the mnemonic in a table of the words that section 17 of document 003
   prints, puts the word together from the operands, and holds it against the four digits of the line. */
#include "instruction.h"
#include "second.h"

#include <string.h>

enum { PROGRAM_REFUSED = 1, UNLISTED = 6, NO_ROOM = 7, NO_LISTING = 26 };
enum { ADDRESS_DIGITS = 3, WORD_DIGITS = 4 };

/* ---- Writing ---- */

/* How many digits each operand has; 0 where there is none. */
static const uint8_t digits_of[][2] = {
    [SHAPE_BANKED] = {3, 0},  [SHAPE_IMMEDIATE] = {3, 1}, [SHAPE_TARGET] = {3, 0},
    [SHAPE_DECIMAL] = {3, 0}, [SHAPE_CONSTANT] = {1, 1},  [SHAPE_BARE] = {0, 0},
};

static uint8_t *put_number(uint8_t *at, uint32_t number, int digits)
{
    for (int place = digits - 1; place >= 0; place--) {
        at[place] = (uint8_t)"0123456789ABCDEF"[number & 15];
        number >>= 4;
    }
    return at + digits;
}

static uint8_t *put_name(uint8_t *at, const char *name)
{
    while (*name != '\0')
        *at++ = (uint8_t)*name++;
    return at;
}

static uint8_t *put_line(uint8_t *at, unsigned address, uint16_t word)
{
    struct instruction instruction;
    uint64_t value;

    at = put_number(at, address, ADDRESS_DIGITS);
    *at++ = ' ';
    at = put_number(at, word, WORD_DIGITS);
    *at++ = ' ';
    if (instruction_read(word, &instruction, &value) == UNLISTED) {
        at = put_name(at, "DATA");
    } else {
        const uint8_t *digits = digits_of[instruction_shape(instruction.mnemonic)];

        at = put_name(at, instruction_name(instruction.mnemonic));
        for (int operand = 0; operand < 2; operand++)
            if (digits[operand] != 0) {
                *at++ = ' ';
                at = put_number(at, instruction.field[operand], digits[operand]);
            }
    }
    *at++ = '\n';
    return at;
}

uint32_t second_listing_write(const uint8_t *program, size_t program_len, uint8_t *text, size_t room, uint64_t *count,
                              uint64_t *value)
{
    uint8_t listing[SECOND_LISTING_BYTES_MOST];
    uint8_t *end = listing;
    size_t length;

    if (program_len != SECOND_PROGRAM_BYTES) {
        *value = program_len;
        return PROGRAM_REFUSED;
    }
    for (unsigned address = 0; address < SECOND_WORDS; address++)
        end = put_line(end, address, (uint16_t)(program[2 * address] << 8 | program[2 * address + 1]));
    length = (size_t)(end - listing);
    if (room < length) {
        *value = length;
        return NO_ROOM;
    }
    memcpy(text, listing, length);
    *count = length;
    *value = 0;
    return 0;
}

/* ---- Reading ---- */

/* The operands that can follow a mnemonic: how many digits each has, 0 where there is none, how far left it stands in
   the word, and the highest that the first can be; the second can be any digit. */
enum operands { NONE, CELL, NEAR_CELL, NEAR_CELL_AND_NUMBER, TARGET, FAR_TARGET, TWO_NIBBLES };

static const struct {
    uint16_t first_most;
    uint8_t first_digits, first_shift, second_digits, second_shift;
} operands_are[] = {
    [NONE] = {0, 0, 0, 0, 0},
    [CELL] = {0x3FF, 3, 0, 0, 0},
    [NEAR_CELL] = {0x07F, 3, 0, 0, 0},
    [NEAR_CELL_AND_NUMBER] = {0x07F, 3, 0, 1, 7},
    [TARGET] = {0x7FF, 3, 0, 0, 0},
    [FAR_TARGET] = {0xFFF, 3, 0, 0, 0},
    [TWO_NIBBLES] = {0x00F, 1, 4, 1, 0},
};

enum { NAME_ROOM = 8, NAME_MOST = 5 };

/* A mnemonic and its word with all operand bits 0. */
struct form {
    char name[NAME_ROOM];
    uint16_t word;
    enum operands operands;
};

static const struct form of_a[] = {
    {"ADC", 0x0000, CELL}, {"ADCM", 0x0400, CELL}, {"ADD", 0x0800, CELL}, {"ADDM", 0x0C00, CELL},
    {"AND", 0x3000, CELL}, {"ANDM", 0x3400, CELL}, {"ADI", 0x4000, NEAR_CELL_AND_NUMBER},
    {"ADIM", 0x4800, NEAR_CELL_AND_NUMBER}, {"ANDIM", 0x7000, NEAR_CELL_AND_NUMBER},
};
static const struct form of_b[] = {
    {"BNZ", 0x8000, TARGET}, {"BNC", 0x8800, TARGET}, {"BAZ", 0x9000, TARGET}, {"BC", 0x9800, TARGET},
    {"BA0", 0xA000, TARGET}, {"BA1", 0xA800, TARGET}, {"BA2", 0xB000, TARGET}, {"BA3", 0xB800, TARGET},
};
static const struct form of_c[] = {{"CALL", 0xC000, TARGET}};
static const struct form of_d[] = {{"DAA", 0xCB00, NEAR_CELL}, {"DAS", 0xCD00, NEAR_CELL}};
static const struct form of_e[] = {
    {"EOR", 0x2000, CELL}, {"EORM", 0x2400, CELL}, {"EORIM", 0x6000, NEAR_CELL_AND_NUMBER},
};
static const struct form of_h[] = {{"HALT", 0xD800, NONE}};
static const struct form of_j[] = {{"JMP", 0xE000, FAR_TARGET}};
static const struct form of_l[] = {{"LDA", 0x3800, CELL}, {"LDI", 0x7800, NEAR_CELL_AND_NUMBER}};
static const struct form of_n[] = {{"NOP", 0xFFFF, NONE}};
static const struct form of_o[] = {
    {"OR", 0x2800, CELL}, {"ORM", 0x2C00, CELL}, {"ORIM", 0x6800, NEAR_CELL_AND_NUMBER},
};
static const struct form of_r[] = {{"RTNW", 0xD000, TWO_NIBBLES}, {"RTNI", 0xD400, NONE}};
static const struct form of_s[] = {
    {"SBC", 0x1000, CELL}, {"SBCM", 0x1400, CELL}, {"SUB", 0x1800, CELL}, {"SUBM", 0x1C00, CELL},
    {"SBI", 0x5000, NEAR_CELL_AND_NUMBER}, {"SBIM", 0x5800, NEAR_CELL_AND_NUMBER}, {"STA", 0x3C00, CELL},
    {"STOP", 0xDC00, NONE}, {"SHR", 0xF000, NONE},
};
static const struct form of_t[] = {{"TJMP", 0xF7FF, NONE}};

#define FORMS(of) {of, sizeof of / sizeof of[0]}

static const struct {
    const struct form *forms;
    size_t count;
} by_letter['Z' + 1] = {
    ['A'] = FORMS(of_a), ['B'] = FORMS(of_b), ['C'] = FORMS(of_c), ['D'] = FORMS(of_d), ['E'] = FORMS(of_e),
    ['H'] = FORMS(of_h), ['J'] = FORMS(of_j), ['L'] = FORMS(of_l), ['N'] = FORMS(of_n), ['O'] = FORMS(of_o),
    ['R'] = FORMS(of_r), ['S'] = FORMS(of_s), ['T'] = FORMS(of_t),
};

/* One more than what a digit stands for; 0 for a byte that is none. */
static const uint8_t digit_and_one[256] = {
    ['0'] = 1, ['1'] = 2,  ['2'] = 3,  ['3'] = 4,  ['4'] = 5,  ['5'] = 6,  ['6'] = 7,  ['7'] = 8,
    ['8'] = 9, ['9'] = 10, ['A'] = 11, ['B'] = 12, ['C'] = 13, ['D'] = 14, ['E'] = 15, ['F'] = 16,
};

/* What is left of the text. Each function below takes one item from its front, or answers false. */
struct rest {
    const uint8_t *at, *end;
};

static bool take_byte(struct rest *rest, char byte)
{
    if (rest->at == rest->end || *rest->at != (uint8_t)byte)
        return false;
    rest->at++;
    return true;
}

static bool take_number(struct rest *rest, int digits, uint32_t *number)
{
    *number = 0;
    if (rest->end - rest->at < digits)
        return false;
    for (; digits > 0; digits--) {
        uint8_t digit = digit_and_one[*rest->at++];

        if (digit == 0)
            return false;
        *number = *number << 4 | (digit - 1u);
    }
    return true;
}

/* Up to five letters and digits, with zeros behind them; what is longer has none of the names. */
static bool take_name(struct rest *rest, char name[NAME_ROOM])
{
    int length = 0;

    memset(name, 0, NAME_ROOM);
    while (rest->at < rest->end && length < NAME_MOST
           && ((*rest->at >= 'A' && *rest->at <= 'Z') || (*rest->at >= '0' && *rest->at <= '9')))
        name[length++] = (char)*rest->at++;
    return length > 0;
}

static const struct form *form_named(const char name[NAME_ROOM])
{
    uint8_t letter = (uint8_t)name[0];

    for (size_t at = 0; at < by_letter[letter].count; at++)
        if (memcmp(by_letter[letter].forms[at].name, name, NAME_ROOM) == 0)
            return &by_letter[letter].forms[at];
    return NULL;
}

static bool take_operands(struct rest *rest, const struct form *form, uint32_t *word)
{
    uint32_t first = 0, second = 0;
    enum operands operands = form->operands;

    if (operands_are[operands].first_digits != 0
        && !(take_byte(rest, ' ') && take_number(rest, operands_are[operands].first_digits, &first)
             && first <= operands_are[operands].first_most))
        return false;
    if (operands_are[operands].second_digits != 0
        && !(take_byte(rest, ' ') && take_number(rest, operands_are[operands].second_digits, &second)))
        return false;
    *word = form->word | first << operands_are[operands].first_shift | second << operands_are[operands].second_shift;
    return true;
}

static bool is_unlisted(uint16_t word)
{
    struct instruction instruction;
    uint64_t value;

    return instruction_read(word, &instruction, &value) == UNLISTED;
}

/* The mnemonic and operands of this word, or the mark of an unlisted one. */
static bool take_meaning(struct rest *rest, uint16_t word)
{
    static const char mark[NAME_ROOM] = "DATA";
    char name[NAME_ROOM];
    const struct form *form;
    uint32_t meant;

    if (!take_name(rest, name))
        return false;
    if (memcmp(name, mark, NAME_ROOM) == 0)
        return is_unlisted(word);
    form = form_named(name);
    return form != NULL && take_operands(rest, form, &meant) && meant == word;
}

static bool take_line(struct rest *rest, unsigned address, uint16_t *word)
{
    uint32_t number;

    if (!take_number(rest, ADDRESS_DIGITS, &number) || number != address || !take_byte(rest, ' '))
        return false;
    if (!take_number(rest, WORD_DIGITS, &number) || !take_byte(rest, ' '))
        return false;
    *word = (uint16_t)number;
    return take_meaning(rest, *word) && take_byte(rest, '\n');
}

uint32_t second_listing_read(const uint8_t *text, size_t text_len, uint8_t *program, size_t room, uint64_t *value)
{
    uint8_t words[SECOND_PROGRAM_BYTES];
    struct rest rest = {text, text + text_len};

    for (unsigned address = 0; address < SECOND_WORDS; address++) {
        uint16_t word;

        if (!take_line(&rest, address, &word)) {
            *value = address;
            return NO_LISTING;
        }
        words[2 * address] = (uint8_t)(word >> 8);
        words[2 * address + 1] = (uint8_t)word;
    }
    if (rest.at != rest.end) {
        *value = SECOND_WORDS;
        return NO_LISTING;
    }
    if (room < SECOND_PROGRAM_BYTES) {
        *value = SECOND_PROGRAM_BYTES;
        return NO_ROOM;
    }
    memcpy(program, words, SECOND_PROGRAM_BYTES);
    *value = 0;
    return 0;
}
