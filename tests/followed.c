/* Holds desk trace to the second emulator, which shares no code with the library.
     followed draw SEED EVENTS NAME BOOK
       writes NAME.book, NAME.state and NAME.script, drawn at random, with BOOK's wiring and level;
     followed hold BOOK STATE SCRIPT FROM COUNT LINES DUMP
       lets the events of SCRIPT, a file of bytes, happen to the second emulator from STATE, and holds against it, event
       by event, what desk trace has shown with --from FROM and --count COUNT, and the dump it has written. */
#include "followed.h"

#include <ctype.h>
#include <stdio.h>
#include <stdlib.h>
#include <string.h>

enum { LINE_ROOM = 32768, LINES_BEHIND = 3 };

/* ---- Files ---- */

static _Noreturn void give_up(const char *path)
{
    perror(path);
    exit(2);
}

struct text read_whole(const char *path)
{
    FILE *file = fopen(path, "rb");
    struct text text = {NULL, 0};
    long length;

    if (file == NULL || fseek(file, 0, SEEK_END) != 0 || (length = ftell(file)) < 0 || fseek(file, 0, SEEK_SET) != 0)
        give_up(path);
    text.length = (size_t)length;
    text.at = calloc(text.length + 1, 1);
    if (text.at == NULL || fread(text.at, 1, text.length, file) != text.length || fclose(file) != 0)
        give_up(path);
    return text;
}

void write_whole(const char *path, const uint8_t *bytes, size_t length)
{
    FILE *file = fopen(path, "wb");

    if (file == NULL || fwrite(bytes, 1, length, file) != length || fclose(file) != 0)
        give_up(path);
}

/* ---- The line that an event must have ---- */

/* The second emulator's listing of the program, line by line. */
static char listing[SECOND_LISTING_BYTES_MOST + 1];
static const char *listed[SECOND_WORDS];

static void list_program(const uint8_t *program)
{
    uint64_t count = 0, value;

    (void)second_listing_write(program, SECOND_PROGRAM_BYTES, (uint8_t *)listing, sizeof listing, &count, &value);
    listing[count] = '\0';
    listed[0] = strtok(listing, "\n");
    for (int address = 1; address < SECOND_WORDS; address++)
        listed[address] = strtok(NULL, "\n");
}

static void add(char line[LINE_ROOM], const char *format, unsigned a, unsigned b, unsigned c)
{
    size_t length = strlen(line);

    snprintf(line + length, LINE_ROOM - length, format, a, b, c);
}

static void add_event(char line[LINE_ROOM], unsigned event)
{
    static const char *const names[] = {" cycle", " base", " watchdog", " reset", " no event", " sound"};

    if (event >= PINS_A)
        add(line, " %c=%X", (unsigned)"abcd"[event / 16 - 1], event % 16, 0);
    else
        strcat(line, names[event]);
}

/* What a cycle does, as 01 orders it: STOP is left for the external and the port interrupt alone; then an interrupt is
   taken, or an instruction executed, or HALT goes on. */
enum does { EXECUTES, INTERRUPTED, ASLEEP, NO_CYCLE };

static enum does does_of(const struct followed *followed)
{
    const struct second_machine *m = &followed->before;
    unsigned due = m->cell[0x000] & m->cell[0x001];

    if (followed->event != CYCLE)
        return NO_CYCLE;
    if (m->mode == SECOND_STOP && (due & (8 | 1)) == 0)
        return ASLEEP;
    if (due != 0)
        return INTERRUPTED;
    return m->mode == SECOND_RUNNING ? EXECUTES : ASLEEP;
}

/* With one blank between any two words. */
static void wanted_line(const struct followed *followed, char line[LINE_ROOM])
{
    static const char *const modes[] = {" running", " HALT", " STOP"};
    const struct second_machine *before = &followed->before, *after = &followed->after;
    const enum does does = does_of(followed);

    snprintf(line, LINE_ROOM, "%llu", (unsigned long long)followed->place);
    add_event(line, followed->event);
    strcat(line, does == EXECUTES ? " " : " (");
    strcat(line, listed[before->pc]);
    strcat(line, does == EXECUTES ? "" : ")");
    add(line, " %03X %X %u", after->pc, after->ac, after->cy);
    strcat(line, modes[after->mode]);
    if (does == INTERRUPTED)
        add(line, " interrupt to $%03X", after->pc, 0, 0);
    if (does == ASLEEP)
        strcat(line, " asleep");
    for (unsigned cell = 0; cell < SECOND_CELLS; cell++)
        if (before->cell[cell] != after->cell[cell])
            add(line, " $%03X %X -> %X", cell, before->cell[cell], after->cell[cell]);
    for (unsigned port = 0; port < 4; port++)
        if (before->pins[port] != after->pins[port])
            add(line, " pins %c %X -> %X", 'A' + port, before->pins[port], after->pins[port]);
}

/* ---- The lines that desk trace has shown ---- */

/* The next line, with one blank between any two words; "" where there is none. */
static void next_line(const char **from, char line[LINE_ROOM])
{
    size_t length = 0;
    bool blank = false;

    while (**from != '\0' && **from != '\n' && length + 2 < LINE_ROOM) {
        char letter = *(*from)++;

        if (isspace((unsigned char)letter)) {
            blank = length > 0;
            continue;
        }
        if (blank)
            line[length++] = ' ';
        blank = false;
        line[length++] = letter;
    }
    *from += **from == '\n';
    line[length] = '\0';
}

static void hold_line(const struct followed *followed, const char **lines)
{
    static char wanted[LINE_ROOM], shown[LINE_ROOM];

    wanted_line(followed, wanted);
    next_line(lines, shown);
    check(strcmp(wanted, shown) == 0, "an event is\n  %s\nand was shown as\n  %s", wanted, shown);
}

/* The line behind the events' lines, and no more than what the registers then are behind it. */
static void hold_end(const char *lines, uint64_t done, size_t events, uint64_t shown)
{
    const unsigned long long all = done, first = done - shown, count = shown;
    static char line[LINE_ROOM];
    char wanted[LINE_ROOM];
    int behind = 0;

    next_line(&lines, line);
    if (shown == 0)
        snprintf(wanted, sizeof wanted, "%llu of %zu events done, none shown", all, events);
    else
        snprintf(wanted, sizeof wanted, "%llu of %zu events done, %llu shown, %llu to %llu", all, events, count, first,
                 all - 1);
    check(strncmp(line, wanted, strlen(wanted)) == 0, "the end is not '%s' but '%s'", wanted, line);
    for (; *lines != '\0'; behind++)
        next_line(&lines, line);
    check(behind <= LINES_BEHIND, "%d lines stand behind the end", behind);
}

/* ---- A trace ---- */

struct trace {
    uint8_t *book, program[SECOND_PROGRAM_BYTES];
    unsigned high, low;
    uint8_t memory[SECOND_CELLS], record[SECOND_RECORD_BYTES];
    struct text script;
    uint64_t from, count, done, cycles, shown;
};

static void read_trace(struct trace *trace, char **words)
{
    struct text book = read_whole(words[0]), state = read_whole(words[1]);
    uint64_t program, program_len, wiring, wiring_len, level, level_len, value;

    trace->script = read_whole(words[2]);
    trace->from = strtoull(words[3], NULL, 10);
    trace->count = strtoull(words[4], NULL, 10);
    if (second_book_read((uint8_t *)book.at, book.length, &program, &program_len, &wiring, &wiring_len, &level,
                         &level_len, &value) != 0
        || state.length != SECOND_CELLS + SECOND_RECORD_BYTES)
        give_up(words[0]);
    memcpy(trace->program, book.at + program, sizeof trace->program);
    memcpy(trace->memory, state.at, sizeof trace->memory);
    memcpy(trace->record, state.at + sizeof trace->memory, sizeof trace->record);
    trace->high = two((uint8_t *)book.at + level);
    trace->low = two((uint8_t *)book.at + level + 2);
    list_program(trace->program);
}

/* Lets the next event happen. Answers false where there is none that can. */
static bool follow(struct trace *trace, struct followed *followed)
{
    uint64_t value;

    if (trace->done == trace->script.length)
        return false;
    followed->place = trace->done;
    followed->event = (uint8_t)trace->script.at[trace->done];
    second_unpack(&followed->before, trace->memory, trace->record);
    if (second_step(trace->program, sizeof trace->program, trace->memory, sizeof trace->memory, trace->record,
                    sizeof trace->record, followed->event, &value) != 0)
        return false;
    second_unpack(&followed->after, trace->memory, trace->record);
    trace->done++;
    trace->cycles += followed->event == CYCLE;
    followed->cycles = trace->cycles;
    return true;
}

static void hold(char **words)
{
    static struct trace trace;
    static const char wanted_head[] = "event what at word instruction PC AC CY mode changes, before -> after";
    static struct followed followed;
    static char head[LINE_ROOM];
    unsigned long met[NO_CYCLE + 1] = {0};
    struct text text;
    const char *lines;

    read_trace(&trace, words);
    text = read_whole(words[5]);
    lines = text.at;
    while (trace.done < trace.from && follow(&trace, &followed))
        ;
    second_unpack(&followed.after, trace.memory, trace.record);
    open_dump(words[6], &followed.after, trace.cycles, trace.high, trace.low);
    next_line(&lines, head);
    check(strcmp(head, wanted_head) == 0, "the head is %s", head);
    for (; trace.shown < trace.count && follow(&trace, &followed); trace.shown++) {
        hold_line(&followed, &lines);
        hold_dump(&followed);
        met[does_of(&followed)]++;
    }
    close_dump(trace.cycles);
    hold_end(lines, trace.done, trace.script.length, trace.shown);
    printf("held %lu events, %lu executed, %lu interrupts, %lu asleep, %d unlisted\n", (unsigned long)trace.shown,
           met[EXECUTES], met[INTERRUPTED], met[ASLEEP], trace.shown < trace.count && trace.done < trace.script.length);
}

int main(int argc, char **argv)
{
    if (argc == 6 && strcmp(argv[1], "draw") == 0) {
        draw(strtoull(argv[2], NULL, 10), strtoul(argv[3], NULL, 10), argv[4], argv[5]);
        return EXIT_SUCCESS;
    }
    if (argc != 9 || strcmp(argv[1], "hold") != 0) {
        fprintf(stderr, "usage: followed draw SEED EVENTS NAME BOOK\n"
                        "       followed hold BOOK STATE SCRIPT FROM COUNT LINES DUMP\n");
        return 2;
    }
    hold(argv + 2);
    printf("%lu passed, %lu failed\n", passed, failed);
    return failed == 0 ? EXIT_SUCCESS : EXIT_FAILURE;
}
