/* Bad lines, typed into a session of the debugger, line after line. Whatever they are, the session goes on until quit
   is said, and its state is one that the library takes. */
#include "../desk/debug.h"
#include "../desk/run.h"
#include "../desk/texts.h"
#include "fuzz.h"

#include <fcntl.h>
#include <stdio.h>
#include <string.h>
#include <unistd.h>

/* A line may ask for so many events, and a session has so many inputs. */
enum { EVENTS_A_LINE = 2000, SESSION_INPUTS = 25 };

static const char words[] =
    "step s run r to t until u mark m back b marks registers reg show sh panel p level list l writers w script sc save "
    "load help h quit EVENTS start all 1 2 3 20 2000 2001 $020 020 021 020-03F 3FF 400 - 000 FFF 1000 TBR PORTA LCDON "
    "IRQT0 PC.1 TM0 kept.state copy.state new.state --force missing a=1 b=F cycle reset sound base watchdog * *9 ( ) )*3 "
    "$04 $2A # level";

/* Lines about files, as often among the good ones as the example's; and what a session that is piped in is made of, in
   which nothing runs for long. */
static const char file_lines[] =
    "save new.state\nsave kept.state\nload kept.state\nload drawn.state\nsave copy.state --force\nload missing\n"
    "save kept.book\nload kept.book\nsave copy.book --force\nlevel\nregisters\nload drawn.state\nstep\n";
static const char short_words[] =
    "step s run r mark m back b marks registers show sh panel level list writers script save load help quit 1 2 20 $020 "
    "TBR all kept.state copy.state new.state drawn.state --force a=1 cycle reset sound * *9 ( ) #";

static struct book book;
static struct state start;
static struct bytes script, good, state;
static struct debugger session;
static unsigned inputs_left;
static struct input input;

static struct bytes with_file_lines(struct bytes lines)
{
    size_t more = strlen(file_lines), times = lines.length / more + 1;
    struct bytes all = {take_memory(lines.length + times * more, 1), lines.length};

    memcpy(all.at, lines.at, lines.length);
    for (; times > 0; times--) {
        memcpy(all.at + all.length, file_lines, more);
        all.length += more;
    }
    give_back(lines.at);
    return all;
}

/* A state that is mostly none. */
static void draw_state(void)
{
    static struct input drawn;

    draw_bytes(&drawn, &(struct sample){state.at, state.length, NULL});
    put_file("drawn.state", drawn.at, drawn.length);
}

void prepare_lines(const char *examples)
{
    char path[4096];

    snprintf(path, sizeof path, "%s/dispatcher.debug", examples);
    good = with_file_lines(read_file(path, FILE_MOST));
    state = read_file("kept.state", FILE_MOST);
    script = read_script("kept.script", false, script_from_text);
    if (!read_book("kept.book", &book) || !make_fresh(&start, 0, "a fresh machine"))
        finding("no session can begin");
}

static void begin_session(void)
{
    if (!begin_debugging(&session, &book, any(2) ? script : (struct bytes){script.at, 0}, "kept.script", &start,
                         "a fresh machine"))
        finding("no session begins");
    session.most = EVENTS_A_LINE;
    session.at_terminal = any(2);
    session.look.digits = any(2);
    inputs_left = SESSION_INPUTS;
}

/* No line names a file outside of the folder, and what --force may write over is a copy. A line with a 0 in it is
   refused, so nothing behind that is a name. */
static void keep_in_folder(char *line, size_t length)
{
    for (size_t at = 0; at < length; at++)
        if (line[at] == '/')
            line[at] = '_';
    for (char *kept = line; strstr(line, "--force") != NULL && (kept = strstr(kept, "kept.")) != NULL;)
        memcpy(kept, "copy", 4);
}

static bool is_taken(const struct state *state)
{
    struct state copy = *state;
    uint8_t nothing = 0;
    uint64_t done, value;
    uint32_t reason;

    return run_part(&book, &copy, (struct bytes){&nothing, 0}, GALHOVEIA_NO_STOP, &reason, &done, &value)
           == GALHOVEIA_DONE;
}

/* Types a line, which may have bytes that end a text. Answers whether the session goes on. */
static bool type(char *line, size_t length)
{
    char said[80];
    bool goes_on;

    snprintf(said, sizeof said, "the line %.60s", line);
    goes_on = debug_line(&session, line, length);
    if (!goes_on && strchr(said, 'q') == NULL)
        finding("%s ends the session", said);
    if (!is_taken(&session.now.state))
        finding("%s leaves a state that is none", said);
    return goes_on;
}

static void input_lines(struct outcome *outcome)
{
    const struct sample sample = {good.at, good.length, words};
    char *line, *end;
    uint64_t done;

    if (inputs_left-- == 0)
        begin_session();
    draw_state();
    draw_text(&input, &sample);
    line = (char *)input.at;
    end = line + input.length;
    done = session.now.done;
    while (line < end) {
        char *feed = memchr(line, '\n', (size_t)(end - line)), *stop = feed != NULL ? feed : end;

        *stop = '\0';
        keep_in_folder(line, (size_t)(stop - line));
        if (!type(line, (size_t)(stop - line)))
            begin_session();
        line = stop + 1;
    }
    outcome->taken += session.now.done != done;
    outcome->refused += session.now.done == done;
    look_at_folder("the debugger");
    restore_copies();
}

/* A session that is piped in: the command itself reads it, line by line. */
static void input_session(struct outcome *outcome)
{
    const struct sample sample = {(const uint8_t *)file_lines, strlen(file_lines), short_words};
    int from, nothing = open("/dev/null", O_RDONLY);

    draw_state();
    draw_text(&input, &sample);
    shorten_numbers(&input);
    for (char *line = (char *)input.at, *end = line + input.length; line < end;) {
        char *feed = memchr(line, '\n', (size_t)(end - line)), *stop = feed != NULL ? feed : end;

        *stop = '\0';
        keep_in_folder(line, (size_t)(stop - line));
        if (feed != NULL)
            *stop = '\n';
        line = stop + 1;
    }
    put_file("drawn.lines", input.at, input.length);
    from = open("drawn.lines", O_RDONLY);
    if (from < 0 || nothing < 0 || dup2(from, STDIN_FILENO) < 0)
        finding("a session cannot be piped in");
    work_words(outcome, any(2) ? "debug kept.book" : "debug kept.book --script kept.script --echo");
    dup2(nothing, STDIN_FILENO);
    close(from);
    close(nothing);
}

const struct kind_of_input line_kinds[] = {
    {"debugger lines", 6, input_lines, begin_session, false},
    {"debugger sessions", 3, input_session, NULL, true},
    {NULL, 0, NULL, NULL, false},
};
