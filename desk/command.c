/* What a command is called with. */
#include "command.h"

#include "texts.h"

#include <stdio.h>
#include <string.h>

/* More than any command has. */
enum { OPTIONS_MOST = 32 };

_Noreturn void wrong_use(const struct command *command, const char *what, const char *word)
{
    fflush(stdout);
    fprintf(stderr, "desk %s: %s%s%s\nusage: desk %s\ndesk %s --help tells more\n", command->name, what,
            word ? " " : "", word ? word : "", command->usage, command->name);
    end_command(WRONG_USE);
}

void take_words(const struct command *command, int count, char **words, const struct option *options,
                const char **others, int wanted)
{
    const struct option *given[OPTIONS_MOST];
    int found = 0, givens = 0;
    bool options_over = false;

    for (int at = 0; at < count; at++) {
        const struct option *option = options;

        if (options_over || strncmp(words[at], "--", 2) != 0) {
            if (found == wanted)
                wrong_use(command, "one word too many:", words[at]);
            others[found++] = words[at];
            continue;
        }
        if (strcmp(words[at], "--") == 0) {
            options_over = true;
            continue;
        }
        while (option->name != NULL && strcmp(option->name, words[at]) != 0)
            option++;
        if (option->name == NULL)
            wrong_use(command, "unknown option", words[at]);
        for (int before = 0; before < givens; before++)
            if (given[before] == option)
                wrong_use(command, "given twice:", words[at]);
        given[givens++] = option;
        if (option->value == NULL) {
            *option->given = true;
            continue;
        }
        if (at + 1 == count)
            wrong_use(command, "a value is due after", words[at]);
        *option->value = words[++at];
    }
    if (found < wanted)
        wrong_use(command, "something is missing", NULL);
}

uint32_t hex_from(const struct command *command, const char *text)
{
    unsigned long long number;

    if (!hex_from_text(text, UINT32_MAX, &number))
        wrong_use(command, "not a hex number up to FFFFFFFF:", text);
    return (uint32_t)number;
}

static _Noreturn void wrong_use_of_number(const struct command *command, uint32_t most, const char *text)
{
    char what[64];

    snprintf(what, sizeof what, "a number up to %lu is due here, not", (unsigned long)most);
    wrong_use(command, what, text);
}

uint32_t decimal_from(const struct command *command, const char *text, uint32_t most)
{
    unsigned long long number;

    if (!number_from(text, strlen(text), most, &number))
        wrong_use_of_number(command, most, text);
    return (uint32_t)number;
}

struct look look_from(const struct command *command, struct look usual, const char *digits, const char *columns)
{
    struct look look = usual;

    if (digits != NULL)
        look.digits = decimal_from(command, digits, GALHOVEIA_ELEMENTS_MOST);
    if (columns != NULL)
        look.columns = decimal_from(command, columns, GALHOVEIA_ELEMENTS_MOST);
    if (look.columns == 0)
        wrong_use(command, "at least one column is due after", "--columns");
    return look;
}

uint32_t stop_from(const struct command *command, const struct course *course)
{
    if (course->state != NULL && course->options != NULL)
        wrong_use(command, "options are for a fresh machine, so not with the state", course->state);
    return course->stop != NULL ? hex_from(command, course->stop) : GALHOVEIA_NO_STOP;
}

bool start_from(const struct command *command, const struct course *course, const char *fresh, struct state *start)
{
    if (course->state == NULL)
        return make_fresh(start, course->options ? decimal_from(command, course->options, UINT32_MAX) : 0, fresh);
    read_state(course->state, start);
    return true;
}

void may_write_both(const struct command *command, const char *one, const char *other, bool force,
                    const char *not_both_into)
{
    if (one != NULL && other != NULL && is_same_file(one, other))
        wrong_use(command, not_both_into, other);
    if (one != NULL)
        may_write(one, force);
    if (other != NULL)
        may_write(other, force);
}
