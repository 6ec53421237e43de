/* A script's events as a value change dump. */
#include "dump.h"

#include "names.h"

#include <string.h>

/* ---- The signals ---- */

enum { FIRST_MARK = 'A', TIME_ROOM = 24, MOST_BITS = 12, CHANGE_ROOM = MOST_BITS + 4 };

/* The level's digits stand where the book says. */
enum { LEVEL_HIGH = 13, LEVEL_LOW = 14 };

static const struct signal chip_signals[DUMP_SIGNALS] = {
    {"cpu", "pc", MOST_BITS, false, GALHOVEIA_RECORD_PC},
    {"cpu", "ac", 4, false, GALHOVEIA_RECORD_AC},
    {"cpu", "cy", 1, false, GALHOVEIA_RECORD_CY},
    {"cpu", "mode", 2, false, GALHOVEIA_RECORD_MODE},
    {"pins", "pins_a", 4, false, GALHOVEIA_RECORD_PINS},
    {"pins", "pins_b", 4, false, GALHOVEIA_RECORD_PINS + 1},
    {"pins", "pins_c", 4, false, GALHOVEIA_RECORD_PINS + 2},
    {"pins", "pins_d", 4, false, GALHOVEIA_RECORD_PINS + 3},
    {"ports", "port_a", 4, true, PORT_A},
    {"ports", "port_b", 4, true, PORT_A + 1},
    {"ports", "port_c", 4, true, PORT_A + 2},
    {"ports", "port_d", 4, true, PORT_A + 3},
    {"timer0", "timer0_counter", 8, false, GALHOVEIA_RECORD_TIMER0_COUNTER},
    [LEVEL_HIGH] = {"level", "level_high", 4, true, 0},
    [LEVEL_LOW] = {"level", "level_low", 4, true, 0},
    {"sound", "sound_1", 1, false, GALHOVEIA_RECORD_OUTPUT_1},
    {"sound", "sound_2", 1, false, GALHOVEIA_RECORD_OUTPUT_2},
};

static unsigned value_in(const struct signal *signal, const struct state *state)
{
    const uint8_t *at = (signal->in_memory ? state->memory : state->record) + signal->place;

    return signal->bits > 8 ? two(at) : *at;
}

/* ---- The text ---- */

/* Before each event there is room for whatever it can add, and for the last time. */
enum { EVENT_ROOM = DUMP_SIGNALS * CHANGE_ROOM + 2 * TIME_ROOM, HEAD_ROOM = 4096 };

static void make_room(struct dump *dump)
{
    if (dump->room - dump->text.length >= EVENT_ROOM)
        return;
    if (dump->room >= DUMP_MOST)
        fail("a dump of more than %d bytes is not made; --from and --count ask for fewer events", DUMP_MOST);
    dump->room *= 2;
    dump->text.at = more_memory(dump->text.at, dump->room);
}

static void put(struct dump *dump, char letter)
{
    dump->text.at[dump->text.length++] = (uint8_t)letter;
}

static void put_text(struct dump *dump, const char *text)
{
    size_t length = strlen(text);

    memcpy(dump->text.at + dump->text.length, text, length);
    dump->text.length += length;
}

static void put_time(struct dump *dump, uint64_t time)
{
    char line[TIME_ROOM];

    snprintf(line, sizeof line, "#%llu\n", (unsigned long long)time);
    put_text(dump, line);
    dump->time = time;
}

/* A signal's mark is its place among the signals, as a letter. */
static void put_value(struct dump *dump, unsigned at)
{
    unsigned bits = dump->signals[at].bits;

    if (bits > 1)
        put(dump, 'b');
    while (bits-- > 0)
        put(dump, dump->values[at] >> bits & 1 ? '1' : '0');
    if (dump->signals[at].bits > 1)
        put(dump, ' ');
    put(dump, (char)(FIRST_MARK + at));
    put(dump, '\n');
}

/* ---- The head ---- */

/* A cell is written without $, which begins a command of the format. */
static void put_opening(struct dump *dump)
{
    char cells[HEAD_ROOM / 4];

    put_text(dump, "$comment\n"
                   "    The chip's signals while a script's events happen to it, made by desk trace.\n"
                   "    One time unit is one instruction cycle. What an event leaves stands at the number of cycles\n"
                   "    done so far, from the script's first event on; events within one cycle all stand there, in\n"
                   "    their order.\n"
                   "    mode: 0 running, 1 asleep in HALT, 2 asleep in STOP.\n"
                   "    pins_a to pins_d: what stands at the pins; port_a to port_d: cells 008 to 00B (hex).\n");
    snprintf(cells, sizeof cells, "    level_high: cell %03X; level_low: cell %03X (hex).\n",
             dump->signals[LEVEL_HIGH].place, dump->signals[LEVEL_LOW].place);
    put_text(dump, cells);
    put_text(dump, "$end\n$version Galhoveia desk trace $end\n$timescale 1 us $end\n");
}

static void put_signals(struct dump *dump)
{
    const char *group = "";
    char line[HEAD_ROOM / 4], range[16];

    for (unsigned at = 0; at < DUMP_SIGNALS; at++) {
        const struct signal *signal = &dump->signals[at];

        if (strcmp(group, signal->group) != 0) {
            snprintf(line, sizeof line, "%s$scope module %s $end\n", at > 0 ? "$upscope $end\n" : "", signal->group);
            put_text(dump, line);
        }
        group = signal->group;
        snprintf(range, sizeof range, signal->bits > 1 ? " [%u:0]" : "", signal->bits - 1);
        snprintf(line, sizeof line, "$var wire %u %c %s%s $end\n", signal->bits, FIRST_MARK + at, signal->name, range);
        put_text(dump, line);
    }
    put_text(dump, "$upscope $end\n$enddefinitions $end\n");
}

void begin_dump(struct dump *dump, const struct book *book, const struct state *start, uint64_t cycles)
{
    *dump = (struct dump){.text = {take_memory(HEAD_ROOM, 1), 0}, .room = HEAD_ROOM, .first_cycle = cycles,
                          .cycles = cycles};
    memcpy(dump->signals, chip_signals, sizeof chip_signals);
    dump->signals[LEVEL_HIGH].place = level_cell(book, HIGH);
    dump->signals[LEVEL_LOW].place = level_cell(book, LOW);
    put_opening(dump);
    put_signals(dump);
    put_time(dump, cycles);
    put_text(dump, "$dumpvars\n");
    for (unsigned at = 0; at < DUMP_SIGNALS; at++) {
        dump->values[at] = value_in(&dump->signals[at], start);
        put_value(dump, at);
    }
    put_text(dump, "$end\n");
    make_room(dump);
}

/* ---- The events ---- */

void dump_moment(struct dump *dump, const struct moment *moment)
{
    dump->events++;
    dump->cycles += moment->event == GALHOVEIA_EVENT_CYCLE;
    for (unsigned at = 0; at < DUMP_SIGNALS; at++) {
        unsigned value = value_in(&dump->signals[at], &moment->after);

        if (value == dump->values[at])
            continue;
        dump->values[at] = value;
        if (dump->time != dump->cycles)
            put_time(dump, dump->cycles);
        put_value(dump, at);
    }
    make_room(dump);
}

/* The last time is one behind the last event's, so that what stands then is seen. */
void write_dump(const char *path, struct dump *dump, bool force)
{
    put_time(dump, dump->cycles + 1);
    write_file(path, dump->text.at, dump->text.length, force);
    printf("%s: %d signals over %llu events, from time %llu to %llu, a unit for each cycle\n", path, DUMP_SIGNALS,
           (unsigned long long)dump->events, (unsigned long long)dump->first_cycle, (unsigned long long)dump->cycles);
}
