/* Books and machine states: read from files, written to them, and shown. */
#include "panel.h"

#include "drawing.h"
#include "plural.h"

#include <string.h>

enum { STATE_BYTES = GALHOVEIA_MEMORY_BYTES + GALHOVEIA_RECORD_BYTES };

/* Earlier versions wrote states whose record ended where fields were added after them. */
static const struct {
    size_t record_bytes;
    const char *added;
} earlier[] = {{GALHOVEIA_RECORD_COUNT_1, "sound"}, {GALHOVEIA_RECORD_FROZEN, "Timer0's frozen nibble"}};

/* ---- Files ---- */

void read_state(const char *path, struct state *state)
{
    struct bytes file = read_file(path, FILE_MOST);

    for (size_t at = 0; at < sizeof earlier / sizeof earlier[0]; at++)
        if (file.length == GALHOVEIA_MEMORY_BYTES + earlier[at].record_bytes)
            fail("%s is a state of a version before %s: it has %zu bytes, and a state now has %d; make it anew by desk "
                 "fresh, or by desk run --save with the script that led to it", path, earlier[at].added, file.length,
                 STATE_BYTES);
    if (file.length != STATE_BYTES)
        fail("%s is no state: it has %zu bytes, and a state has %d (%d of memory, %d of record)", path, file.length,
             STATE_BYTES, GALHOVEIA_MEMORY_BYTES, GALHOVEIA_RECORD_BYTES);
    memcpy(state->memory, file.at, sizeof state->memory);
    memcpy(state->record, file.at + sizeof state->memory, sizeof state->record);
    give_back(file.at);
}

void write_state(const char *path, const struct state *state, bool force)
{
    uint8_t bytes[STATE_BYTES];

    memcpy(bytes, state->memory, sizeof state->memory);
    memcpy(bytes + sizeof state->memory, state->record, sizeof state->record);
    write_file(path, bytes, sizeof bytes, force);
}

void save_state(const char *path, const struct state *state, bool force, const char *taken, const char *what)
{
    if (taken != NULL && is_same_file(taken, path))
        fail("the state is not saved: %s is the file of %s, %s", path, what, taken);
    write_state(path, state, force);
    printf("state saved in %s\n", path);
}

bool read_book(const char *path, struct book *book)
{
    uint64_t program = 0, program_len = 0, wiring = 0, wiring_len = 0, level = 0, level_len = 0, value = 0;
    uint32_t refusal;

    book->file = read_file(path, FILE_MOST);
    refusal = galhoveia_book_read(book->file.at, book->file.length, &program, &program_len, &wiring, &wiring_len, &level,
                                  &level_len, &value);
    if (refusal != GALHOVEIA_DONE) {
        say_refusal(path, refusal, value);
        give_back(book->file.at);
        return false;
    }
    book->program = (struct bytes){book->file.at + program, (size_t)program_len};
    book->wiring = (struct bytes){book->file.at + wiring, (size_t)wiring_len};
    book->level = (struct bytes){book->file.at + level, (size_t)level_len};
    list_lines(book->program.at, &book->lines);
    return true;
}

bool write_book(const char *path, struct bytes program, struct bytes wiring, struct bytes level, bool force)
{
    uint8_t book[GALHOVEIA_BOOK_BYTES_MOST];
    uint64_t length = 0, value = 0;
    uint32_t refusal = galhoveia_book_write(program.at, program.length, wiring.at, wiring.length, level.at,
                                            level.length, book, sizeof book, &length, &value);

    if (refusal != GALHOVEIA_DONE) {
        say_refusal(path, refusal, value);
        return false;
    }
    write_file(path, book, (size_t)length, force);
    printf("%s: a book of %llu bytes\n", path, (unsigned long long)length);
    return true;
}

uint32_t ask_fresh(struct state *state, uint32_t options, uint64_t *value)
{
    return galhoveia_fresh(state->memory, sizeof state->memory, state->record, sizeof state->record, options, value);
}

bool make_fresh(struct state *state, uint32_t options, const char *what)
{
    uint64_t value = 0;
    uint32_t refusal = ask_fresh(state, options, &value);

    if (refusal != GALHOVEIA_DONE)
        say_refusal(what, refusal, value);
    return refusal == GALHOVEIA_DONE;
}

/* ---- What is shown ---- */

unsigned two(const uint8_t *bytes)
{
    return (unsigned)bytes[0] << 8 | bytes[1];
}

unsigned level_cell(const struct book *book, enum digit digit)
{
    return two(book->level.at + 2 * digit);
}

const char *const digit_meaning[DIGITS] = {" (high digit of the level)", " (low digit of the level)"};

const char *cell_meaning(const struct book *book, uint32_t cell)
{
    for (enum digit digit = HIGH; digit < DIGITS; digit++)
        if (level_cell(book, digit) == cell)
            return digit_meaning[digit];
    return "";
}

uint32_t ask_level(const struct book *book, const struct state *state, struct level *level, uint64_t *value)
{
    int32_t stop = 0;
    uint32_t refusal = galhoveia_level(state->memory, sizeof state->memory, book->level.at, book->level.length, &stop,
                                       value);

    level->stop = stop;
    level->ground = book->level.at[4];
    for (enum digit digit = HIGH; digit < DIGITS; digit++)
        level->digit[digit] = state->memory[level_cell(book, digit)];
    return refusal;
}

bool show_level(FILE *to, const struct book *book, const struct state *state, const char *state_name)
{
    struct level level;
    uint64_t value = 0;
    uint32_t refusal = ask_level(book, state, &level, &value);

    if (refusal != GALHOVEIA_DONE) {
        say_refusal(state_name, refusal, value);
        return false;
    }
    fprintf(to, "level %ld  (digits %u,%u; ground code %u)\n", level.stop, level.digit[HIGH], level.digit[LOW],
            level.ground);
    return true;
}

void may_draw(const struct book *book, struct look look)
{
    size_t elements = book->wiring.length / GALHOVEIA_ELEMENT_BYTES;

    if (!look.raw && 7 * (size_t)look.digits > elements)
        fail("%lu digit%s need%s %lu elements, and the wiring has %lu", (unsigned long)look.digits,
             plural(look.digits), look.digits == 1 ? "s" : "", 7 * (unsigned long)look.digits,
             (unsigned long)elements);
}

uint32_t ask_picture(const struct book *book, const struct state *state, struct picture *picture, uint64_t *value)
{
    picture->count = 0;
    return galhoveia_picture(state->memory, sizeof state->memory, state->record, sizeof state->record, book->wiring.at,
                             book->wiring.length, picture->at, sizeof picture->at, &picture->count, value);
}

bool show_picture(const struct book *book, const struct state *state, const char *state_name, struct look look)
{
    struct picture picture;
    uint64_t value = 0;
    uint32_t refusal = ask_picture(book, state, &picture, &value);

    if (refusal != GALHOVEIA_DONE) {
        say_refusal(state_name, refusal, value);
        return false;
    }
    if (look.raw) {
        fwrite(picture.at, 1, (size_t)picture.count, stdout);
        return true;
    }
    draw_picture(stdout, picture.at, (size_t)picture.count, look.digits, look.columns);
    return true;
}

const char *mode_words(const struct state *state)
{
    static const char *const modes[] = {"running", "asleep in HALT", "asleep in STOP"};

    return modes[state->record[GALHOVEIA_RECORD_MODE]];
}

void show_processor(const struct state *state)
{
    const uint8_t *record = state->record;

    printf("PC $%03X, AC %X, CY %u, %s", two(record + GALHOVEIA_RECORD_PC), record[GALHOVEIA_RECORD_AC],
           record[GALHOVEIA_RECORD_CY], mode_words(state));
}

void show_registers(const struct state *state)
{
    const uint8_t *record = state->record;

    show_processor(state);
    printf("\nsound channel 1: output %u, count %u; channel 2: output %u, count %u\n", record[GALHOVEIA_RECORD_OUTPUT_1],
           two(record + GALHOVEIA_RECORD_COUNT_1), record[GALHOVEIA_RECORD_OUTPUT_2],
           two(record + GALHOVEIA_RECORD_COUNT_2));
    if (record[GALHOVEIA_RECORD_FROZEN_MARK])
        printf("Timer0's low nibble is frozen as %X until $004 is read\n", record[GALHOVEIA_RECORD_FROZEN]);
}

uint32_t list_writers(const struct book *book, uint32_t cell, struct writers *writers, uint64_t *value)
{
    uint8_t addresses[GALHOVEIA_PROGRAM_BYTES];
    uint64_t count = 0;
    uint32_t refusal = galhoveia_list(book->program.at, book->program.length, cell, addresses, sizeof addresses,
                                      &count, value);

    if (refusal == GALHOVEIA_DONE)
        take_writers(writers, addresses, count);
    return refusal;
}

bool ask_writers(const struct book *book, uint32_t cell, struct writers *writers)
{
    uint64_t value = 0;
    uint32_t refusal = list_writers(book, cell, writers, &value);

    if (refusal != GALHOVEIA_DONE)
        say_refusal("the list of writers", refusal, value);
    return refusal == GALHOVEIA_DONE;
}

void take_writers(struct writers *writers, const uint8_t *addresses, uint64_t bytes)
{
    writers->count = (size_t)(bytes / 2);
    for (size_t at = 0; at < writers->count; at++)
        writers->address[at] = (uint16_t)two(addresses + 2 * at);
}

void show_instruction(const struct book *book, unsigned address)
{
    printf("%s\n", book->lines.at[address]);
}

/* An instruction that changes a data, display or scan cell has that cell as its first operand, or $00F. */
bool is_through_pointer(const struct book *book, unsigned address)
{
    return strncmp(first_operand(book->lines.at[address]), "00F", 3) == 0;
}

void show_writer(const struct book *book, unsigned address)
{
    printf("%s%s\n", book->lines.at[address],
           is_through_pointer(book, address) ? "  ; wherever the pointer $012, $011, $010 stands" : "");
}

void show_head(uint32_t cell, const char *meaning, size_t count)
{
    printf("cell $%03lX%s: ", (unsigned long)cell, meaning);
    if (count == 0)
        printf("no instruction can change it");
    else
        printf("%zu instruction%s can change it", count, plural(count));
}

void show_list(const struct book *book, const struct writers *writers)
{
    for (size_t at = 0; at < writers->count; at++) {
        printf("  ");
        show_writer(book, writers->address[at]);
    }
}

bool show_writers(const struct book *book, uint32_t cell, const char *meaning)
{
    struct writers writers;

    if (!ask_writers(book, cell, &writers))
        return false;
    show_head(cell, meaning, writers.count);
    printf("\n");
    show_list(book, &writers);
    return true;
}

bool show_level_writers(const struct book *book)
{
    for (enum digit digit = HIGH; digit < DIGITS; digit++)
        if (!show_writers(book, level_cell(book, digit), digit_meaning[digit]))
            return false;
    return true;
}

bool is_nop(const struct book *book, unsigned address)
{
    return two(book->program.at + 2 * address) == NOP_WORD;
}

struct counted_words count_words(const struct book *book)
{
    struct counted_words counted = {0, 0};

    for (unsigned address = 0; address < GALHOVEIA_WORDS; address++) {
        counted.unlisted += is_data(book->lines.at[address]);
        counted.blank += is_nop(book, address);
    }
    return counted;
}

void show_book(const char *path, const struct book *book)
{
    const struct counted_words counted = count_words(book);

    printf("%s is a good book of %zu bytes\n", path, book->file.length);
    printf("  program: %d words, of these %u NOP and %u that are no instruction\n", GALHOVEIA_WORDS, counted.blank,
           counted.unlisted);
    printf("  wiring: %zu elements\n", book->wiring.length / GALHOVEIA_ELEMENT_BYTES);
    printf("  level: high digit in $%03X, low digit in $%03X, ground code %u\n", level_cell(book, HIGH),
           level_cell(book, LOW), book->level.at[4]);
}
