/* The chip's mnemonics, learned from the library's lines. */
#include "mnemonics.h"

#include "files.h"

#include <stdlib.h>
#include <string.h>
#include <strings.h>

const struct form *form_named(const struct mnemonics *known, const char *name, size_t length)
{
    for (int at = known->forms - 1; at >= 0; at--)
        if (strlen(known->form[at].name) == length && strncasecmp(known->form[at].name, name, length) == 0)
            return &known->form[at];
    return NULL;
}

/* The form of this name, added if it is new. */
static struct form *take_form(struct mnemonics *known, const char *name, size_t length)
{
    const struct form *found = form_named(known, name, length);
    struct form *added;

    if (found != NULL)
        return &known->form[found - known->form];
    if (known->forms == FORMS_MOST)
        bad_listing("more mnemonics than the chip has");
    added = &known->form[known->forms++];
    memcpy(added->name, name, length);
    return added;
}

static void learn_form(struct mnemonics *known, const char *text)
{
    size_t length = strcspn(text, " ");
    struct form *form = take_form(known, text, length);
    const char *at = text + length;

    for (int place = 0; *at == ' ' && place < OPERANDS_MOST; place++) {
        struct operand *operand = &form->operand[place];
        char *end;
        unsigned long number = strtoul(at + 1, &end, 16);

        form->count = place + 1;
        operand->digits = (int)(end - (at + 1));
        if (number > operand->most)
            operand->most = (unsigned)number;
        at = end;
    }
}

static int by_text(const void *one, const void *other)
{
    return strcmp(((const struct instruction_line *)one)->text, ((const struct instruction_line *)other)->text);
}

static void learn_mnemonics(struct mnemonics *known)
{
    struct lines lines;

    for (unsigned first = 0; first < WORDS_ALL; first += GALHOVEIA_WORDS) {
        list_words(first, &lines);
        for (unsigned at = 0; at < GALHOVEIA_WORDS; at++) {
            struct instruction_line *line = &known->line[known->lines];

            if (is_data(lines.at[at]))
                continue;
            strcpy(line->text, lines.at[at] + LINE_MNEMONIC);
            line->word = (uint16_t)(first + at);
            learn_form(known, line->text);
            known->lines++;
        }
    }
    qsort(known->line, known->lines, sizeof known->line[0], by_text);
}

const struct mnemonics *chip_mnemonics(void)
{
    static struct mnemonics known;

    if (known.lines == 0)
        learn_mnemonics(&known);
    return &known;
}

bool word_of(const struct mnemonics *known, const char *text, uint16_t *word)
{
    struct instruction_line asked = {.word = 0};
    const struct instruction_line *found;

    if (strlen(text) >= sizeof asked.text)
        return false;
    strcpy(asked.text, text);
    found = bsearch(&asked, known->line, known->lines, sizeof known->line[0], by_text);
    if (found == NULL)
        return false;
    *word = found->word;
    return true;
}
