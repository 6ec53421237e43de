/* The text forms of scripts, wirings and level bodies; programs have assembler.c. */
#include "texts.h"

#include "galhoveia.h"
#include "progress.h"

#include <ctype.h>
#include <string.h>

static int digit_of(char letter)
{
    if (letter >= '0' && letter <= '9')
        return letter - '0';
    if (letter >= 'a' && letter <= 'f')
        return letter - 'a' + 10;
    return letter >= 'A' && letter <= 'F' ? letter - 'A' + 10 : 16;
}

bool number_from(const char *text, size_t length, unsigned long long most, unsigned long long *number)
{
    unsigned base = 10;
    size_t at = 0;

    if (length > 1 && text[0] == '$') {
        base = 16;
        at = 1;
    } else if (length > 2 && text[0] == '0' && (text[1] == 'x' || text[1] == 'X')) {
        base = 16;
        at = 2;
    }
    if (at == length)
        return false;
    *number = 0;
    for (; at < length; at++) {
        unsigned digit = (unsigned)digit_of(text[at]);

        if (digit >= base || digit > most || *number > (most - digit) / base)
            return false;
        *number = *number * base + digit;
    }
    return true;
}

bool hex_from_text(const char *text, unsigned long long most, unsigned long long *number)
{
    char with_mark[64];
    bool marked = text[0] == '$' || strncmp(text, "0x", 2) == 0 || strncmp(text, "0X", 2) == 0;

    return snprintf(with_mark, sizeof with_mark, "%s%s", marked ? "" : "$", text) < (int)sizeof with_mark
           && number_from(with_mark, strlen(with_mark), most, number);
}

/* ---- Reading files ---- */

struct bytes read_text(const char *path, size_t most, struct bytes (*from_text)(const char *, const char *))
{
    struct bytes file = read_file(path, most), made;

    if (memchr(file.at, 0, file.length) != NULL)
        fail("%s is no text", path);
    made = from_text(path, (const char *)file.at);
    give_back(file.at);
    return made;
}

struct bytes read_script(const char *path, bool raw, struct bytes (*from_text)(const char *, const char *))
{
    struct bytes script;

    begin_progress("reading the script", 0);
    script = raw ? read_file(path, SCRIPT_FILE_MOST) : read_text(path, SCRIPT_FILE_MOST, from_text);
    end_progress();
    return script;
}

/* ---- Reading words and lines ---- */

struct reader {
    const char *path; /* NULL where the text is no file's */
    const char *at;
    unsigned long line;
};

static void skip_blanks(struct reader *reader)
{
    for (;;) {
        if (*reader->at == '#')
            reader->at += strcspn(reader->at, "\n");
        if (*reader->at == '\0' || !isspace((unsigned char)*reader->at))
            break;
        reader->line += *reader->at == '\n';
        reader->at++;
    }
}

/* The beginning of what is said of a line. */
static const char *place_of(const struct reader *reader, unsigned long line)
{
    enum { NUMBER_ROOM = 32 };
    size_t room = reader->path ? strlen(reader->path) + NUMBER_ROOM : 1;
    char *place = take_memory(room, 1);

    if (reader->path != NULL)
        snprintf(place, room, "%s:%lu: ", reader->path, line);
    return place;
}

static bool ends_word(char letter)
{
    return letter == '\0' || letter == '#' || isspace((unsigned char)letter);
}

/* The next word of the text, with comments from # to the line's end passed over. Answers its length, 0 at the end. */
static size_t next_word(struct reader *reader, const char **word)
{
    size_t length = 0;

    skip_blanks(reader);
    while (!ends_word(reader->at[length]))
        length++;
    *word = reader->at;
    reader->at += length;
    return length;
}

/* ---- Scripts ---- */

#define EVENTS_HELP \
    "  cycle              one instruction cycle\n" \
    "  base               one pulse of the base timer's clock\n" \
    "  watchdog           one millisecond for the watchdog\n" \
    "  reset              the reset pin\n" \
    "  sound              one clock of the sound generator\n" \
    "  a=5 b=F c=0 d=1    the four pins of port A, B, C or D become this hex digit, pin 3 first\n" \
    "  $2A                an event by its byte, two hex digits\n" \
    "  EVENT*N            the event N times, N in decimal: cycle*100\n" \
    "  (EVENTS)*N         what stands in the brackets N times: (cycle sound*4)*200; a group may stand in a group\n"

const char script_help[] =
    "A script is a text of events with blanks or line ends between them; # begins a comment.\n"
    EVENTS_HELP
    "With --raw-script the file holds the event bytes themselves.\n";

const char two_cars_help[] =
    "A script of two cars is a text of events. In every line they stand behind their car, 0: or 1:, which holds up to\n"
    "the next car or the line's end; a group may have events of both. # begins a comment.\n"
    "  0: a=1 cycle*100            events of car 0\n"
    "  1: reset cycle*20           events of car 1\n"
    "  (0: cycle 1: cycle)*50      turn by turn\n"
    "The events are:\n"
    EVENTS_HELP
    "With --raw-script the file holds the bytes themselves, two for each entry: the car, 0 or 1, and the event.\n";

/* The most that a script's text may come to, in bytes, and the groups in each other. */
enum { SCRIPT_MOST = 1 << 30, GROUPS_MOST = 16 };

static bool is_word(const char *word, size_t length, const char *name)
{
    return strlen(name) == length && memcmp(word, name, length) == 0;
}

static const struct {
    const char *name;
    uint8_t event;
} named[] = {{"cycle", GALHOVEIA_EVENT_CYCLE},
             {"base", GALHOVEIA_EVENT_BASE},
             {"watchdog", GALHOVEIA_EVENT_WATCHDOG},
             {"reset", GALHOVEIA_EVENT_RESET},
             {"sound", GALHOVEIA_EVENT_SOUND}};

enum { NAMED = sizeof named / sizeof named[0] };

static const char ports[] = "abcd";

bool event_from(const char *word, size_t length, uint8_t *event)
{
    for (size_t at = 0; at < NAMED; at++)
        if (is_word(word, length, named[at].name)) {
            *event = named[at].event;
            return true;
        }
    if (length == 3 && word[1] == '=' && strchr(ports, word[0]) != NULL && digit_of(word[2]) < 16) {
        *event = (uint8_t)(GALHOVEIA_EVENT_PINS_A + 16 * (strchr(ports, word[0]) - ports) + digit_of(word[2]));
        return true;
    }
    if (length == 3 && word[0] == '$' && digit_of(word[1]) < 16 && digit_of(word[2]) < 16) {
        *event = (uint8_t)(16 * digit_of(word[1]) + digit_of(word[2]));
        return true;
    }
    return false;
}

const char *event_word(uint8_t event, char word[EVENT_WORD_ROOM])
{
    unsigned port = (event - GALHOVEIA_EVENT_PINS_A) / 16u;

    for (size_t at = 0; at < NAMED; at++)
        if (named[at].event == event)
            return named[at].name;
    if (event >= GALHOVEIA_EVENT_PINS_A && port < strlen(ports))
        snprintf(word, EVENT_WORD_ROOM, "%c=%X", ports[port], event % 16u);
    else
        snprintf(word, EVENT_WORD_ROOM, "$%02X", event);
    return word;
}

/* A script that is being read, and the groups that are open in it: where each begins, in the script and in the text. In
   a script of two cars also the last car that was named, in which line, and whether its first event is still to come. */
struct growing {
    struct reader reader;
    struct bytes script;
    size_t room, most;
    struct {
        size_t from;
        unsigned long line;
    } group[GROUPS_MOST];
    size_t open;
    bool two_cars;
    struct {
        uint8_t number;
        unsigned long line;
        bool waits;
    } car;
};

/* The next bracket or event with what stands right behind it, as next_word has it. */
static size_t next_part(struct reader *reader, const char **part)
{
    size_t length = 0;

    skip_blanks(reader);
    *part = reader->at;
    if (*reader->at == '(') {
        reader->at++;
        return 1;
    }
    length += *reader->at == ')';
    while (!ends_word(reader->at[length]) && reader->at[length] != '(' && reader->at[length] != ')')
        length++;
    reader->at += length;
    return length;
}

/* How often, by what stands behind the name's end: nothing for once, or a star and a number. */
static size_t times_of(const struct reader *reader, const char *part, size_t length, size_t name)
{
    const char *digits = part + name + 1;
    size_t count = length - name - 1;
    unsigned long long times = 1;

    if (name == length)
        return 1;
    if (part[name] != '*' || strspn(digits, "0123456789") < count || !number_from(digits, count, SCRIPT_MOST, &times))
        fail("%s%.*s: how many times? A decimal number up to %d stands after *", place_of(reader, reader->line),
             (int)length, part, SCRIPT_MOST);
    return (size_t)times;
}

static void make_room(struct growing *growing, size_t length)
{
    if (length <= growing->room)
        return;
    growing->room = 2 * length;
    growing->script.at = more_memory(growing->script.at, growing->room);
}

/* What the script has from `from` on stands there so many times. */
static void repeat_from(struct growing *growing, size_t from, size_t times)
{
    size_t once = growing->script.length - from, whole = once * times;

    if (times > 0 && once > (growing->most - from) / times)
        fail("%sthe %s has more than %zu %s", place_of(&growing->reader, growing->reader.line),
             growing->reader.path ? "script" : "line", growing->two_cars ? growing->most / 2 : growing->most,
             growing->two_cars ? "entries" : "events");
    make_room(growing, from + whole);
    for (size_t done = once; done < whole;) {
        size_t part = done < whole - done ? done : whole - done;

        memcpy(growing->script.at + from + done, growing->script.at + from, part);
        done += part;
    }
    growing->script.length = from + whole;
}

static void open_group(struct growing *growing)
{
    if (growing->open == GROUPS_MOST)
        fail("%smore than %d groups stand in each other", place_of(&growing->reader, growing->reader.line),
             GROUPS_MOST);
    growing->group[growing->open].from = growing->script.length;
    growing->group[growing->open].line = growing->reader.line;
    growing->open++;
}

static void close_group(struct growing *growing, const char *part, size_t length)
{
    size_t times;

    if (growing->open == 0)
        fail("%s%.*s closes a group that no ( opens", place_of(&growing->reader, growing->reader.line), (int)length,
             part);
    times = times_of(&growing->reader, part, length, 1);
    growing->open--;
    repeat_from(growing, growing->group[growing->open].from, times);
}

/* A car must have an event behind it in its line. */
static void end_car(const struct growing *growing)
{
    if (growing->car.waits)
        fail("%s:%lu: no event stands behind %u: in this line", growing->reader.path, growing->car.line,
             growing->car.number);
}

/* Answers whether a car stands here, as whatever is before a colon must be, and takes it. */
static bool take_car(struct growing *growing)
{
    struct reader *reader = &growing->reader;
    size_t name = 0, colon;

    skip_blanks(reader);
    while (!ends_word(reader->at[name]) && strchr(":()", reader->at[name]) == NULL)
        name++;
    colon = name + strspn(reader->at + name, " \t");
    if (reader->at[colon] != ':')
        return false;
    if (!is_word(reader->at, name, "0") && !is_word(reader->at, name, "1"))
        fail("%s:%lu: %.*s is no car; the cars are 0: and 1:", reader->path, reader->line, (int)colon + 1, reader->at);
    end_car(growing);
    growing->car.number = (uint8_t)(*reader->at - '0');
    growing->car.line = reader->line;
    growing->car.waits = true;
    reader->at += colon + 1;
    return true;
}

/* An event must have a car before it in its line. */
static void need_car(struct growing *growing, const char *part, size_t length)
{
    if (growing->car.line != growing->reader.line) {
        end_car(growing);
        fail("%s:%lu: %.*s: of which car? In every line 0: or 1: stands before the events", growing->reader.path,
             growing->reader.line, (int)length, part);
    }
    growing->car.waits = false;
}

static void add_events(struct growing *growing, const char *part, size_t length)
{
    const char *star = memchr(part, '*', length);
    size_t name = star ? (size_t)(star - part) : length, times, from = growing->script.length;
    uint8_t event;

    if (growing->two_cars)
        need_car(growing, part, length);
    if (!event_from(part, name, &event))
        fail("%s%.*s is no event (desk %s --help lists them)", place_of(&growing->reader, growing->reader.line),
             (int)length, part, growing->two_cars ? "run-two" : "run");
    times = times_of(&growing->reader, part, length, name);
    make_room(growing, from + 2);
    if (growing->two_cars)
        growing->script.at[growing->script.length++] = growing->car.number;
    growing->script.at[growing->script.length++] = event;
    repeat_from(growing, from, times);
}

static struct bytes events_from_text(const char *path, const char *text, size_t most, bool two_cars)
{
    struct growing growing = {
        .reader = {path, text, 1}, .script = {take_memory(1, 1), 0}, .room = 1, .most = most, .two_cars = two_cars};
    const char *part;
    size_t length;

    for (;;) {
        if (two_cars && take_car(&growing))
            continue;
        length = next_part(&growing.reader, &part);
        if (length == 0)
            break;
        if (*part == '(')
            open_group(&growing);
        else if (*part == ')')
            close_group(&growing, part, length);
        else
            add_events(&growing, part, length);
    }
    if (growing.open > 0)
        fail("%sthe group that begins here has no ) at its end",
             place_of(&growing.reader, growing.group[growing.open - 1].line));
    end_car(&growing);
    return growing.script;
}

struct bytes script_from_text(const char *path, const char *text)
{
    return events_from_text(path, text, SCRIPT_MOST, false);
}

struct bytes events_from_line(const char *line, size_t most)
{
    return events_from_text(NULL, line, most, false);
}

struct bytes two_cars_from_text(const char *path, const char *text)
{
    return events_from_text(path, text, SCRIPT_MOST, true);
}

/* ---- Wirings ---- */

const char wiring_help[] =
    "A wiring is a text with one element in each word, in the order of the picture: $300.2 is bit 2 of display cell\n"
    "$300. # begins a comment.\n";

enum { WORDS_MOST = 65536 };

struct bytes wiring_from_text(const char *path, const char *text)
{
    struct reader reader = {path, text, 1};
    struct bytes wiring = {take_memory(WORDS_MOST, GALHOVEIA_ELEMENT_BYTES), 0};
    const char *word;
    size_t length;

    while ((length = next_word(&reader, &word)) != 0) {
        const char *dot = memchr(word, '.', length);
        unsigned long long cell, bit;

        if (dot == NULL || !number_from(word, (size_t)(dot - word), 0xFFFF, &cell)
            || !number_from(dot + 1, length - (size_t)(dot + 1 - word), 0xFF, &bit))
            fail("%s:%lu: %.*s is no element such as $300.2", path, reader.line, (int)length, word);
        if (wiring.length == (size_t)WORDS_MOST * GALHOVEIA_ELEMENT_BYTES)
            fail("%s:%lu: far too many elements", path, reader.line);
        wiring.at[wiring.length++] = (uint8_t)(cell >> 8);
        wiring.at[wiring.length++] = (uint8_t)cell;
        wiring.at[wiring.length++] = (uint8_t)bit;
    }
    return wiring;
}

/* ---- Level bodies ---- */

const char level_help[] =
    "A level body is a text with the words: high CELL low CELL ground CODE, in any order, each once:\n"
    "  high $020   low $021   ground 2\n"
    "# begins a comment.\n";

struct bytes level_from_text(const char *path, const char *text)
{
    enum { HIGH, LOW, GROUND, FIELDS };
    static const char *const names[FIELDS] = {"high", "low", "ground"};
    static const unsigned most[FIELDS] = {0xFFFF, 0xFFFF, 0xFF};
    struct reader reader = {path, text, 1};
    struct bytes level = {take_memory(GALHOVEIA_LEVEL_BYTES, 1), GALHOVEIA_LEVEL_BYTES};
    unsigned long long field[FIELDS] = {0};
    bool given[FIELDS] = {false};
    const char *word;
    size_t length;

    while ((length = next_word(&reader, &word)) != 0) {
        int at = 0;

        while (at < FIELDS && !is_word(word, length, names[at]))
            at++;
        if (at == FIELDS || given[at])
            fail("%s:%lu: %.*s, where high, low or ground is due, each once", path, reader.line, (int)length, word);
        length = next_word(&reader, &word);
        if (length == 0 || !number_from(word, length, most[at], &field[at]))
            fail("%s:%lu: after %s a number up to %u is due", path, reader.line, names[at], most[at]);
        given[at] = true;
    }
    for (int at = 0; at < FIELDS; at++)
        if (!given[at])
            fail("%s: the level body says nothing of %s", path, names[at]);
    level.at[0] = (uint8_t)(field[HIGH] >> 8);
    level.at[1] = (uint8_t)field[HIGH];
    level.at[2] = (uint8_t)(field[LOW] >> 8);
    level.at[3] = (uint8_t)field[LOW];
    level.at[4] = (uint8_t)field[GROUND];
    return level;
}
