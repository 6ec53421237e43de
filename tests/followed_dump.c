/* A value change dump, read by its format alone (IEEE 1364, 18.2), held to the second emulator. */
#include "followed.h"

#include <ctype.h>
#include <stdio.h>
#include <stdlib.h>
#include <string.h>

enum { VARIABLES_MOST = 64, WORD_ROOM = 64, NONE = -1 };

/* ---- What a dump must have ---- */

enum signal {
    PC, AC, CY, MODE, PIN_A, PIN_B, PIN_C, PIN_D, PORT_A, PORT_B, PORT_C, PORT_D, TIMER0, HIGH, LOW, SOUND_1, SOUND_2,
    SIGNALS
};

static const struct {
    const char *name; /* behind its scope */
    unsigned bits;
} wanted[SIGNALS] = {
    [PC] = {"cpu.pc", 12}, [AC] = {"cpu.ac", 4}, [CY] = {"cpu.cy", 1}, [MODE] = {"cpu.mode", 2},
    [PIN_A] = {"pins.pins_a", 4}, [PIN_B] = {"pins.pins_b", 4}, [PIN_C] = {"pins.pins_c", 4},
    [PIN_D] = {"pins.pins_d", 4},
    [PORT_A] = {"ports.port_a", 4}, [PORT_B] = {"ports.port_b", 4}, [PORT_C] = {"ports.port_c", 4},
    [PORT_D] = {"ports.port_d", 4},
    [TIMER0] = {"timer0.timer0_counter", 8}, [HIGH] = {"level.level_high", 4}, [LOW] = {"level.level_low", 4},
    [SOUND_1] = {"sound.sound_1", 1}, [SOUND_2] = {"sound.sound_2", 1},
};

static unsigned high_cell, low_cell;

static unsigned value_of(enum signal signal, const struct second_machine *m)
{
    switch (signal) {
    case PC:
        return m->pc;
    case AC:
        return m->ac;
    case CY:
        return m->cy;
    case MODE:
        return m->mode;
    case TIMER0:
        return m->timer0_counter;
    case HIGH:
        return m->cell[high_cell];
    case LOW:
        return m->cell[low_cell];
    case SOUND_1: case SOUND_2:
        return m->tone[signal - SOUND_1].output;
    default:
        return signal < PORT_A ? m->pins[signal - PIN_A] : m->cell[0x008 + signal - PORT_A];
    }
}

/* ---- What a dump has ---- */

static struct {
    char mark[WORD_ROOM];
    enum signal signal;
} variables[VARIABLES_MOST];

static int variable_count;
static struct text text;
static const char *at;
static bool declared[SIGNALS];
static unsigned value[SIGNALS]; /* as the dump has it so far */
static uint64_t time_now;
static bool timed;

/* The next word; "" at the end. */
static const char *next_word(void)
{
    static char word[WORD_ROOM];
    size_t length = 0;

    while (isspace((unsigned char)*at))
        at++;
    while (*at != '\0' && !isspace((unsigned char)*at)) {
        if (length + 1 < sizeof word)
            word[length++] = *at;
        at++;
    }
    word[length] = '\0';
    return word;
}

/* Passes over the words up to $end; answers them with one blank before each. */
static const char *up_to_end(void)
{
    static char words[16 * WORD_ROOM];
    const char *word;

    words[0] = '\0';
    while (*(word = next_word()) != '\0' && strcmp(word, "$end") != 0)
        if (strlen(words) + strlen(word) + 2 < sizeof words) {
            strcat(words, " ");
            strcat(words, word);
        }
    return words;
}

static int signal_named(const char *name)
{
    for (int signal = 0; signal < SIGNALS; signal++)
        if (strcmp(wanted[signal].name, name) == 0)
            return signal;
    return NONE;
}

static int variable_of(const char *mark)
{
    for (int variable = 0; variable < variable_count; variable++)
        if (strcmp(variables[variable].mark, mark) == 0)
            return variable;
    return NONE;
}

/* wire 12 A pc [11:0], in a scope */
static void declare(const char *words, const char *scope)
{
    char kind[WORD_ROOM], mark[WORD_ROOM], name[WORD_ROOM], range[WORD_ROOM] = "", whole[2 * WORD_ROOM + 2];
    char wanted_range[WORD_ROOM] = "";
    unsigned bits = 0;
    int read = sscanf(words, "%63s %u %63s %63s %63s", kind, &bits, mark, name, range), signal;

    snprintf(whole, sizeof whole, "%s.%s", scope, name);
    signal = signal_named(whole);
    check(read >= 4 && signal != NONE, "the dump has a variable that it should not have: %s", words);
    if (read < 4 || signal == NONE || variable_count == VARIABLES_MOST)
        return;
    if (wanted[signal].bits > 1)
        snprintf(wanted_range, sizeof wanted_range, "[%u:0]", wanted[signal].bits - 1);
    check(!declared[signal], "%s stands twice", whole);
    check(bits == wanted[signal].bits && strcmp(range, wanted_range) == 0, "%s has %u bits %s", whole, bits, range);
    check(variable_of(mark) == NONE, "the mark %s stands for two variables", mark);
    declared[signal] = true;
    strcpy(variables[variable_count].mark, mark);
    variables[variable_count++].signal = (enum signal)signal;
}

static void read_head(void)
{
    char scope[WORD_ROOM] = "", command[WORD_ROOM];
    bool version = false, unit = false, ended = false;

    while (!ended && *at != '\0') {
        const char *words;

        strcpy(command, next_word());
        words = up_to_end();
        ended = strcmp(command, "$enddefinitions") == 0;
        version = version || strcmp(command, "$version") == 0;
        if (strcmp(command, "$timescale") == 0)
            unit = strcmp(words, " 1 us") == 0;
        else if (strcmp(command, "$scope") == 0)
            check(*scope == '\0' && sscanf(words, " module %63s", scope) == 1, "a scope is%s", words);
        else if (strcmp(command, "$upscope") == 0)
            scope[0] = '\0';
        else if (strcmp(command, "$var") == 0)
            declare(words, scope);
        else
            check(ended || strcmp(command, "$version") == 0 || strcmp(command, "$comment") == 0,
                  "in the dump's head stands %s", command);
    }
    check(ended && version && unit && *scope == '\0', "the dump's head lacks its end, version or time unit");
    for (int signal = 0; signal < SIGNALS; signal++)
        check(declared[signal], "the dump lacks %s", wanted[signal].name);
}

/* Reads times up to the next change, and that change. Answers its signal, or NONE before a word that is no change and
   at the end. */
static int next_change(const char *stop)
{
    const char *before, *word;
    char bits[WORD_ROOM];
    int variable;

    for (;;) {
        before = at;
        word = next_word();
        if (*word != '#')
            break;
        check(!timed || strtoull(word + 1, NULL, 10) > time_now, "time goes from %llu to %s",
              (unsigned long long)time_now, word);
        time_now = strtoull(word + 1, NULL, 10);
        timed = true;
    }
    if (strcmp(word, stop) == 0 || (*word != 'b' && *word != '0' && *word != '1')) {
        at = before;
        return NONE;
    }
    strcpy(bits, *word == 'b' ? word + 1 : (char[]){*word, '\0'});
    variable = variable_of(*word == 'b' ? next_word() : word + 1);
    check(variable != NONE && bits[strspn(bits, "01")] == '\0', "a change is of no variable or has no value: %s", bits);
    if (variable == NONE)
        return NONE;
    check(strlen(bits) <= wanted[variables[variable].signal].bits, "%s has the value %s",
          wanted[variables[variable].signal].name, bits);
    value[variables[variable].signal] = (unsigned)strtoul(bits, NULL, 2);
    return (int)variables[variable].signal;
}

/* ---- Held to the second emulator ---- */

static void hold_values(const struct second_machine *machine, const char *when, uint64_t place)
{
    for (int signal = 0; signal < SIGNALS; signal++)
        check(value[signal] == value_of((enum signal)signal, machine), "%s %llu: %s is %X in the dump, not %X", when,
              (unsigned long long)place, wanted[signal].name, value[signal], value_of((enum signal)signal, machine));
}

void open_dump(const char *path, const struct second_machine *start, uint64_t cycles, unsigned high, unsigned low)
{
    bool given[SIGNALS] = {false};
    const char *word;
    int signal;

    text = read_whole(path);
    at = text.at;
    high_cell = high;
    low_cell = low;
    read_head();
    word = next_word();
    check(*word == '#' && strtoull(word + 1, NULL, 10) == cycles, "the dump begins at %s, not at cycle %llu", word,
          (unsigned long long)cycles);
    time_now = cycles;
    timed = true;
    check(strcmp(next_word(), "$dumpvars") == 0, "the dump does not begin with all values");
    while ((signal = next_change("$end")) != NONE) {
        check(!given[signal], "%s is given twice before the events", wanted[signal].name);
        given[signal] = true;
    }
    for (signal = 0; signal < SIGNALS; signal++)
        check(given[signal], "%s is not given before the events", wanted[signal].name);
    check(strcmp(next_word(), "$end") == 0 && time_now == cycles, "the values before the events have no end");
    hold_values(start, "before the event after cycle", cycles);
}

/* An event's changes are what the dump has next, each once, at the number of cycles done. */
void hold_dump(const struct followed *followed)
{
    bool changed[SIGNALS];
    int changes = 0;

    for (int signal = 0; signal < SIGNALS; signal++) {
        changed[signal] = value_of((enum signal)signal, &followed->before) != value_of((enum signal)signal,
                                                                                        &followed->after);
        changes += changed[signal];
    }
    for (; changes > 0; changes--) {
        int signal = next_change("");

        check(signal != NONE && changed[signal] && time_now == followed->cycles,
              "event %llu, after cycle %llu: at %llu the dump changes %s", (unsigned long long)followed->place,
              (unsigned long long)followed->cycles, (unsigned long long)time_now,
              signal != NONE ? wanted[signal].name : "nothing more");
        if (signal != NONE)
            changed[signal] = false;
    }
    hold_values(&followed->after, "event", followed->place);
}

void close_dump(uint64_t cycles)
{
    check(next_change("") == NONE && *next_word() == '\0', "more stands behind the last event's changes");
    check(time_now == cycles + 1, "the dump ends at %llu, not at %llu", (unsigned long long)time_now,
          (unsigned long long)cycles + 1);
    free(text.at);
}
