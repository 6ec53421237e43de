/* A small assembler: a program in text to its 8,192 bytes, in two passes over the lines. */
#include "mnemonics.h"
#include "texts.h"

#include "galhoveia.h"

#include <ctype.h>
#include <stdio.h>
#include <string.h>
#include <strings.h>

const char program_help[] =
    "A program is a text in assembly, one instruction in a line; ; begins a comment.\n"
    "  NAME EQU VALUE         gives a number a name\n"
    "  ORG ADDRESS            the next word stands at this program address\n"
    "  NAME: LDI $020, 5      a label, its own line or before an instruction\n"
    "  DW VALUE               a word as it is\n"
    "Mnemonics are those of the data sheet, section 17. A cell is given with its bank as one address, $000-$3FF; the\n"
    "forms with a number, DAA and DAS reach $000-$07F. DAA and DAS adjust the cell, whatever AC holds; AC gets the\n"
    "result too. Branches and CALL reach their own half of the program. A value is a number (18, $12, 0x12) or a\n"
    "name, with + and - between several. Words that no line fills are NOP.\n";

enum { NAMES_MOST = 4096, NAME_ROOM = 32, INSTRUCTION_ROOM = 40 };

struct name {
    char text[NAME_ROOM];
    long value;
};

struct assembler {
    const char *path;
    const struct mnemonics *known;
    unsigned long line;
    bool last_pass;
    long address;
    struct name *names;
    int name_count;
    uint8_t *program;
    bool *filled;
};

/* ---- The line under the reader ---- */

static const char *blanks(const char *at)
{
    while (*at == ' ' || *at == '\t')
        at++;
    return at;
}

static size_t name_length(const char *at)
{
    size_t length = 0;

    if (!isalpha((unsigned char)*at) && *at != '_')
        return 0;
    while (isalnum((unsigned char)at[length]) || at[length] == '_')
        length++;
    return length;
}

static _Noreturn void bad_line(const struct assembler *as, const char *what, const char *at, size_t length)
{
    fail("%s:%lu: %s: %.*s", as->path, as->line, what, (int)length, at);
}

/* ---- Names and values ---- */

static struct name *find(const struct assembler *as, const char *text, size_t length)
{
    for (int at = 0; at < as->name_count; at++)
        if (strlen(as->names[at].text) == length && memcmp(as->names[at].text, text, length) == 0)
            return &as->names[at];
    return NULL;
}

static void define(struct assembler *as, const char *text, size_t length, long value)
{
    struct name *known = find(as, text, length);

    if (as->last_pass) {
        known->value = value;
        return;
    }
    if (known != NULL)
        bad_line(as, "this name is given twice", text, length);
    if (length >= NAME_ROOM || as->name_count == NAMES_MOST)
        bad_line(as, "this name is too long, or there are too many", text, length);
    if (form_named(as->known, text, length) != NULL)
        bad_line(as, "a mnemonic cannot be a name", text, length);
    memcpy(as->names[as->name_count].text, text, length);
    as->names[as->name_count++].value = value;
}

/* A name that is not known yet counts as 0 in the first pass where it may be a label further down; in an EQU or ORG
   it must be known. */
static long term(const struct assembler *as, const char **at, bool must_be_known)
{
    const char *from = blanks(*at);
    size_t length = name_length(from);
    unsigned long long number;

    if (length > 0) {
        struct name *known = find(as, from, length);

        *at = from + length;
        if (known != NULL)
            return known->value;
        if (must_be_known || as->last_pass)
            bad_line(as, "unknown name", from, length);
        return 0;
    }
    while (isalnum((unsigned char)from[length]) || from[length] == '$')
        length++;
    if (!number_from(from, length, 0xFFFF, &number))
        bad_line(as, "a number up to $FFFF or a name is due here", from, strcspn(from, ";\r\n"));
    *at = from + length;
    return (long)number;
}

static long value_at(const struct assembler *as, const char **at, bool must_be_known)
{
    long value = term(as, at, must_be_known);

    for (;;) {
        char sign = *blanks(*at);

        if (sign != '+' && sign != '-')
            return value;
        *at = blanks(*at) + 1;
        value += sign == '+' ? term(as, at, must_be_known) : -term(as, at, must_be_known);
    }
}

/* ---- Instructions ---- */

static unsigned in_range(const struct assembler *as, long value, long most, const char *what)
{
    if (as->last_pass && (value < 0 || value > most))
        fail("%s:%lu: %s is 0 to $%lX here, not %ld", as->path, as->line, what, (unsigned long)most, value);
    return (unsigned)value;
}

/* An operand of one digit is a number; of the others, one whose largest is a memory address is a cell, and the rest are
   program addresses, whose bits above that largest are those of the instruction's own address. */
static unsigned operand_at(const struct assembler *as, const struct form *form, int place, const char **at)
{
    const struct operand *operand = &form->operand[place];
    long value;

    if (place > 0) {
        *at = blanks(*at);
        if (**at != ',')
            bad_line(as, "a comma and a second operand are due here", *at, strcspn(*at, ";\r\n"));
        (*at)++;
    }
    value = value_at(as, at, false);
    if (operand->digits == 1)
        return in_range(as, value, operand->most, place == 0 ? "the high number" : "the number");
    if (operand->most < GALHOVEIA_MEMORY_BYTES)
        return in_range(as, value, operand->most, "the cell");
    in_range(as, value, GALHOVEIA_WORDS - 1, "the target");
    if (as->last_pass && ((unsigned)(value ^ as->address) & ~operand->most) != 0)
        fail("%s:%lu: the target $%03lX lies in the other half of the program", as->path, as->line,
             (unsigned long)value);
    return (unsigned)value & operand->most;
}

/* The word whose line in a listing has the instruction, the operands behind its mnemonic read. In the first pass, where
   a label may be unknown yet, it is 0. */
static unsigned instruction_at(const struct assembler *as, const struct form *form, const char **at)
{
    char text[INSTRUCTION_ROOM];
    int length = snprintf(text, sizeof text, "%s", form->name);
    uint16_t word = 0;

    for (int place = 0; place < form->count; place++) {
        unsigned number = operand_at(as, form, place, at);

        if (as->last_pass)
            length += snprintf(text + length, sizeof text - (size_t)length, " %0*X", form->operand[place].digits,
                               number);
    }
    if (as->last_pass && !word_of(as->known, text, &word))
        bad_listing("an instruction has no line");
    return word;
}

static void put(struct assembler *as, unsigned word)
{
    if (as->address >= GALHOVEIA_WORDS)
        fail("%s:%lu: the program ends at $FFF", as->path, as->line);
    if (as->last_pass) {
        if (as->filled[as->address])
            fail("%s:%lu: there is a word at $%03lX already", as->path, as->line, (unsigned long)as->address);
        as->filled[as->address] = true;
        as->program[2 * as->address] = (uint8_t)(word >> 8);
        as->program[2 * as->address + 1] = (uint8_t)word;
    }
    as->address++;
}

static bool is_keyword(const char *at, size_t length, const char *keyword)
{
    return strlen(keyword) == length && strncasecmp(at, keyword, length) == 0;
}

static void read_line(struct assembler *as, const char *at)
{
    size_t length;
    const struct form *form;

    at = blanks(at);
    length = name_length(at);
    if (length > 0 && *blanks(at + length) == ':') {
        define(as, at, length, as->address);
        at = blanks(blanks(at + length) + 1);
        length = name_length(at);
    }
    if (length > 0) {
        const char *second = blanks(at + length);

        if (is_keyword(second, name_length(second), "EQU")) {
            const char *value = second + strlen("EQU");

            define(as, at, length, value_at(as, &value, true));
            at = value;
        } else if (is_keyword(at, length, "ORG")) {
            at += length;
            as->address = value_at(as, &at, true);
            if (as->address < 0 || as->address >= GALHOVEIA_WORDS)
                fail("%s:%lu: program addresses are 0 to $FFF", as->path, as->line);
        } else if (is_keyword(at, length, "DW")) {
            at += length;
            put(as, in_range(as, value_at(as, &at, false), 0xFFFF, "the word"));
        } else if ((form = form_named(as->known, at, length)) != NULL) {
            at += length;
            put(as, instruction_at(as, form, &at));
        } else {
            bad_line(as, "unknown mnemonic", at, length);
        }
    }
    at = blanks(at);
    if (*at != '\0' && *at != ';' && *at != '\n' && *at != '\r')
        bad_line(as, "not understood", at, strcspn(at, "\r\n"));
}

struct bytes program_from_text(const char *path, const char *text)
{
    struct assembler as = {.path = path,
                           .known = chip_mnemonics(),
                           .names = take_memory(NAMES_MOST, sizeof *as.names),
                           .program = take_memory(GALHOVEIA_PROGRAM_BYTES, 1),
                           .filled = take_memory(GALHOVEIA_WORDS, sizeof *as.filled)};

    memset(as.program, 0xFF, GALHOVEIA_PROGRAM_BYTES);
    for (int pass = 0; pass < 2; pass++) {
        const char *at = text;

        as.last_pass = pass == 1;
        as.address = 0;
        as.line = 0;
        while (*at != '\0') {
            as.line++;
            read_line(&as, at);
            at += strcspn(at, "\n");
            at += *at == '\n';
        }
    }
    give_back(as.names);
    give_back(as.filled);
    return (struct bytes){as.program, GALHOVEIA_PROGRAM_BYTES};
}
