/* Bad files and bad command lines, given to whole commands of the desk, which are worked in a folder of files that must
   stay as they are. */
#define _DEFAULT_SOURCE
#include "../desk/desk.h"
#include "../desk/panel.h"
#include "fuzz.h"

#include <dirent.h>
#include <stdio.h>
#include <string.h>
#include <sys/stat.h>
#include <unistd.h>

/* ---- The folder ---- */

/* Files that no command may touch are called kept.*; copies of them, which --force may write over, copy.*; what is
   drawn, drawn.*; and what commands write, mostly new.*. */
enum { FILES_MOST = 16, NAME_ROOM = 32 };

static struct kept {
    char name[NAME_ROOM], copy[NAME_ROOM];
    const char *kind, *words;
    struct bytes good;
    struct stat as_it_was, copy_as_it_was;
} kept[FILES_MOST];

static size_t kept_count;
static struct input input;

void put_file(const char *name, const uint8_t *bytes, size_t length)
{
    FILE *file = fopen(name, "wb");

    if (file == NULL || fwrite(bytes, 1, length, file) != length || fclose(file) != 0)
        finding("the file %s cannot be written", name);
}

static void keep(const char *kind, struct bytes good, const char *words)
{
    struct kept *file = &kept[kept_count++];

    *file = (struct kept){.kind = kind, .words = words, .good = good};
    snprintf(file->name, sizeof file->name, "kept.%s", kind);
    snprintf(file->copy, sizeof file->copy, "copy.%s", kind);
    put_file(file->name, good.at, good.length);
    put_file(file->copy, good.at, good.length);
    if (lstat(file->name, &file->as_it_was) != 0 || lstat(file->copy, &file->copy_as_it_was) != 0)
        finding("the file %s cannot be seen", file->name);
}

static bool is_untouched(const char *name, const struct stat *then)
{
    struct stat now;

    return lstat(name, &now) == 0 && now.st_ino == then->st_ino && now.st_size == then->st_size
           && now.st_mode == then->st_mode && now.st_mtim.tv_sec == then->st_mtim.tv_sec
           && now.st_mtim.tv_nsec == then->st_mtim.tv_nsec;
}

static bool is_of(const char *name, const char *front)
{
    return strncmp(name, front, strlen(front)) == 0;
}

static bool stays(const char *name)
{
    if (strcmp(name, ".") == 0 || strcmp(name, "..") == 0)
        return true;
    for (size_t at = 0; at < kept_count; at++)
        if (strcmp(name, kept[at].name) == 0 || strcmp(name, kept[at].copy) == 0)
            return true;
    return false;
}

/* No kept file is harmed, no part of a file is left, and what was made goes. */
void look_at_folder(const char *said)
{
    DIR *folder = opendir(".");
    struct dirent *entry;

    if (folder == NULL)
        finding("the folder cannot be read");
    while ((entry = readdir(folder)) != NULL) {
        if (strstr(entry->d_name, ".part-") != NULL)
            finding("%s: a part is left: %s", said, entry->d_name);
        if (!stays(entry->d_name))
            unlink(entry->d_name);
    }
    closedir(folder);
    for (size_t at = 0; at < kept_count; at++)
        if (!is_untouched(kept[at].name, &kept[at].as_it_was))
            finding("%s: %s was harmed", said, kept[at].name);
}

void restore_copies(void)
{
    for (size_t at = 0; at < kept_count; at++)
        if (!is_untouched(kept[at].copy, &kept[at].copy_as_it_was)) {
            put_file(kept[at].copy, kept[at].good.at, kept[at].good.length);
            if (lstat(kept[at].copy, &kept[at].copy_as_it_was) != 0)
                finding("the file %s cannot be seen", kept[at].copy);
        }
}

static void copies_are_whole(const char *said)
{
    for (size_t at = 0; at < kept_count; at++)
        if (!is_untouched(kept[at].copy, &kept[at].copy_as_it_was))
            finding("%s is refused, and %s was harmed", said, kept[at].copy);
}

/* ---- Good files ---- */

static struct bytes text_of(const char *text)
{
    return (struct bytes){(uint8_t *)text, strlen(text)};
}

static struct bytes file_from(const char *command_line, const char *name)
{
    char words[256], *argv[16];
    int argc = 0;

    snprintf(words, sizeof words, "%s", command_line);
    for (char *word = strtok(words, " "); word != NULL; word = strtok(NULL, " "))
        argv[argc++] = word;
    if (desk(argc, argv) != DONE)
        finding("%s does not make %s", command_line, name);
    return read_file(name, FILE_MOST);
}

void prepare_files(void)
{
    keep("script", text_of("cycle*40 b=0 c=1 # keyed\na=1 (cycle sound*4)*30 base watchdog a=0 reset cycle*9\n"),
         "cycle base reset sound a=1 *3 ( )*2 # $2A");
    keep("two", text_of("0: cycle*30\n1: b=1 cycle*30\n(0: cycle 1: cycle)*9\n"), "0: 1: cycle a=1 *3 ( )*2 #");
    keep("asm", text_of(" ORG 0\nstart: LDI $020, 1\n LDI $021, 2\n CALL both\n HALT\n JMP start\nboth: DAA $020\n"
                        " STA $00F\n RTNW 0, 3\n DW $F800\n"), "LDI STA JMP ORG DW EQU , : $020 start");
    keep("wiring", text_of("$300.0 $300.1 $300.2 $300.3 $301.0 $301.1 $301.2 $348.3\n"), "$300.0 $349.0 . $1 #");
    keep("level", text_of("high $020 low $021 ground 2\n"), "high low ground $020 2 #");
    keep("book", file_from("desk book make new.book kept.asm kept.wiring kept.level", "new.book"), NULL);
    keep("lst", file_from("desk listing kept.book --out new.lst", "new.lst"), "DATA NOP 000 FFFF STA");
    keep("bin", file_from("desk program kept.lst new.bin", "new.bin"), NULL);
    keep("state", file_from("desk run kept.book kept.script --save new.state", "new.state"), NULL);
    look_at_folder("what makes the files");
}

/* ---- Command lines ---- */

static const char *const lines_of_books[] = {
    "book check drawn.book", "level drawn.book kept.state", "picture drawn.book kept.state --digits 1",
    "run drawn.book kept.script --show", "writers drawn.book --level", "listing drawn.book --out new.lst",
    "xref drawn.book --cell 020", "run-two drawn.book kept.two", "trace drawn.book kept.script --vcd new.vcd --lines",
    "report drawn.book --script kept.script --stop 003 --digits 1 --out new.html",
};

static const char *const lines_of_states[] = {
    "level kept.book drawn.state", "picture kept.book drawn.state", "picture kept.book drawn.state --raw",
    "run kept.book kept.script --state drawn.state --save new.state",
    "run-two kept.book kept.two --state0 drawn.state --state1 kept.state --save1 new.state",
    "run kept.book kept.script --state drawn.state --watch-level", "debug kept.book --state drawn.state",
    "trace kept.book kept.script --state drawn.state --vcd new.vcd",
    "report kept.book --script kept.script --state drawn.state --out new.html",
};

static const char *const lines_of_texts[] = {
    "debug kept.book --script drawn.script --raw-script", "debug kept.book --script drawn.script --echo",
    "run kept.book drawn.script --save new.state", "run kept.book drawn.script --raw-script",
    "run-two kept.book drawn.two --save0 new.0 --save1 new.1", "run-two kept.book drawn.two --raw-script",
    "run kept.book drawn.script --wav new.wav", "book make new.book drawn.asm kept.wiring kept.level",
    "book make new.book kept.asm drawn.wiring kept.level", "book make new.book kept.asm kept.wiring drawn.level",
    "book make new.book drawn.bin kept.wiring kept.level", "program drawn.lst new.bin",
    "trace kept.book drawn.script --from 3 --count 9", "trace kept.book drawn.script --raw-script --count 40",
    "report kept.book --script drawn.script --raw-script --out new.html",
};

static const char *const lines_of_words[] = {
    "--help", "--version", "run --help", "fresh new.state --options 7", "fresh copy.state --force", "fresh kept.state",
    "listing kept.book --out kept.lst", "run kept.book kept.script --state kept.state --save kept.state",
    "run kept.book kept.script --stop 010 --options 5 --save new.state --show --digits 1 --columns 4",
    "run copy.book copy.script --state copy.state --save copy.state --force",
    "run kept.book kept.script --watch 020 --wav new.wav --rate 112500",
    "run-two kept.book kept.two --stop0 3 --options1 6 --save0 new.0 --save1 new.1 --digits 1",
    "debug kept.book --script kept.script --digits 1 --columns 3 --options 2", "level kept.book kept.state",
    "picture kept.book kept.state --digits 1 --columns 3", "writers kept.book 020",
    "writers kept.book --level", "xref kept.book", "xref kept.book --all", "listing kept.book",
    "listing copy.book --out copy.lst --force", "program kept.lst new.bin", "book check kept.book", "manual",
    "book make copy.book copy.asm copy.wiring copy.level --force", "patch kept.book 001 3C20 new.book",
    "trace kept.book kept.script --from 9 --count 20 --options 5", "trace kept.book kept.script --vcd new.vcd --lines",
    "trace copy.book copy.script --state copy.state --vcd copy.lst --force",
    "report kept.book --script kept.script --stop 010 --title kept --columns 3 --out new.html",
    "report copy.book --script copy.script --state copy.state --out copy.html --force",
};

#define LINE_OF(lines) lines[any(sizeof lines / sizeof lines[0])]

static const char option_words[] =
    "--force --stop --state --save --options --digits --columns --watch --watch-level --wav --rate --raw-script --show "
    "--raw --level --out --cell --all --from --count --vcd --lines --script --title --help -- --state0 --stop1 --save1 "
    "kept.book kept.state kept.script new.state drawn.book missing 0 1 7 8 16 240 241 4096 $020 020 FFF 1000 FFFFFFFF "
    "100000000 -1 x 32768 $ 0x";

enum { WORDS_MOST = 32, WORD_ROOM = 48 };

struct line {
    char word[WORDS_MOST][WORD_ROOM];
    int count;
};

static void put_word(struct line *line, int at, const char *word)
{
    if (line->count == WORDS_MOST)
        return;
    memmove(line->word[at + 1], line->word[at], (size_t)(line->count - at) * WORD_ROOM);
    snprintf(line->word[at], WORD_ROOM, "%s", word);
    line->count++;
}

static void lose_word(struct line *line, int at)
{
    line->count--;
    memmove(line->word[at], line->word[at + 1], (size_t)(line->count - at) * WORD_ROOM);
}

static void cut_words(struct line *line, const char *words)
{
    char word[WORD_ROOM];
    int length;

    line->count = 0;
    while (sscanf(words, "%47s%n", word, &length) == 1) {
        put_word(line, line->count, word);
        words += length;
    }
}

/* Words less, more, and others in their place, now and then with a letter that is not theirs. */
static void change_words(struct line *line)
{
    for (uint32_t changes = 1 + any(3); changes > 0; changes--) {
        int at = (int)any((uint32_t)line->count + 1);

        if (at < line->count && any(2))
            lose_word(line, at);
        if (any(3) > 0)
            put_word(line, at, any(8) ? draw_word(option_words) : "");
        if (at < line->count && any(8) == 0)
            line->word[at][any((uint32_t)strlen(line->word[at]) + 1)] = (char)(1 + any(255));
    }
}

/* No word names a file outside of the folder, and what --force may write over is a copy. */
static void keep_in_folder(struct line *line)
{
    bool force = false;

    for (int at = 0; at < line->count; at++) {
        line->word[at][WORD_ROOM - 1] = '\0';
        for (char *letter = line->word[at]; *letter != '\0'; letter++)
            if (*letter == '/')
                *letter = '_';
        force = force || strcmp(line->word[at], "--force") == 0;
    }
    for (int at = 0; force && at < line->count; at++)
        if (is_of(line->word[at], "kept."))
            memcpy(line->word[at], "copy", 4);
}

/* ---- Commands ---- */

static void say_line(const struct line *line, char *said, size_t room)
{
    size_t length = (size_t)snprintf(said, room, "desk");

    for (int at = 0; at < line->count && length < room; at++)
        length += (size_t)snprintf(said + length, room - length, " %s", line->word[at]);
}

static enum status work(struct outcome *outcome, struct line *line)
{
    char *argv[WORDS_MOST + 2] = {"desk"}, said[WORDS_MOST * WORD_ROOM];
    enum status status;

    keep_in_folder(line);
    for (int at = 0; at < line->count; at++)
        argv[at + 1] = line->word[at];
    say_line(line, said, sizeof said);
    status = desk(line->count + 1, argv);
    if (status != DONE && status != REFUSED && status != WRONG_USE)
        finding("%s ends with %d", said, (int)status);
    outcome->taken += status == DONE;
    outcome->refused += status != DONE;
    look_at_folder(said);
    if (status == WRONG_USE)
        copies_are_whole(said);
    restore_copies();
    return status;
}

void work_words(struct outcome *outcome, const char *words)
{
    struct line line;

    cut_words(&line, words);
    work(outcome, &line);
}

/* The file that a line names as drawn, from the kept one of its kind. */
static void draw_file(const struct line *line)
{
    for (int word = 0; word < line->count; word++)
        for (size_t at = 0; is_of(line->word[word], "drawn.") && at < kept_count; at++)
            if (strcmp(line->word[word] + strlen("drawn."), kept[at].kind) == 0) {
                const struct sample sample = {kept[at].good.at, kept[at].good.length, kept[at].words};

                if (kept[at].words != NULL)
                    draw_text(&input, &sample);
                else
                    draw_bytes(&input, &sample);
                put_file(line->word[word], input.at, input.length);
            }
}

static enum status work_drawn(struct outcome *outcome, const char *words)
{
    struct line line;

    cut_words(&line, words);
    draw_file(&line);
    return work(outcome, &line);
}

static void input_book(struct outcome *outcome)
{
    work_drawn(outcome, LINE_OF(lines_of_books));
}

static void input_state(struct outcome *outcome)
{
    enum { STATE_BYTES = GALHOVEIA_MEMORY_BYTES + GALHOVEIA_RECORD_BYTES };

    if (work_drawn(outcome, LINE_OF(lines_of_states)) != WRONG_USE && input.length != STATE_BYTES)
        finding("a state of %zu bytes is read", input.length);
}

static void input_text_file(struct outcome *outcome)
{
    work_drawn(outcome, LINE_OF(lines_of_texts));
}

static void input_words(struct outcome *outcome)
{
    struct line line;

    cut_words(&line, LINE_OF(lines_of_words));
    if (any(8) > 0)
        change_words(&line);
    work(outcome, &line);
}

const struct kind_of_input file_kinds[] = {
    {"books", 4, input_book, NULL, false},
    {"states", 4, input_state, NULL, false},
    {"files of texts", 4, input_text_file, NULL, false},
    {"command lines", 5, input_words, NULL, false},
    {NULL, 0, NULL, NULL, false},
};
