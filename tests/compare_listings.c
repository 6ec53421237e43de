/* Listings: all 65,536 words and programs at random, written and read back by both sides, and the refusals of both
   calls. */
#include "compare.h"
#include "compare_listings.h"

#include <string.h>

enum { PROGRAMS_OF_ALL_WORDS = 0x10000 / WORDS, RANDOM_PROGRAMS = 3000, ADDRESS_BYTES = 4, EMPTY = 0xEE, BEYOND = 64 };

/* The lines of all words, as they were written, from the word's digits on. */
static struct {
    uint8_t length;
    uint8_t bytes[LINE_BYTES_MOST - ADDRESS_BYTES];
} line_of[0x10000];

/* Every word belongs to a form, and each form has its words. */
static uint16_t words_by_form[0x10000];
static unsigned form_begins[FORMS + 1];

static uint8_t empty[LISTING_BYTES_MOST + BEYOND];

int form_of(uint16_t word)
{
    struct instruction instruction;
    uint64_t value;

    return instruction_read(word, &instruction, &value) == 0 ? (int)instruction.mnemonic : DATA_FORM;
}

uint16_t any_word_of(int form)
{
    return words_by_form[form_begins[form] + any(form_begins[form + 1] - form_begins[form])];
}

static void sort_by_form(void)
{
    unsigned at = 0;

    for (int form = 0; form < FORMS; form++) {
        form_begins[form] = at;
        for (uint32_t word = 0; word <= 0xFFFF; word++)
            if (form_of((uint16_t)word) == form)
                words_by_form[at++] = (uint16_t)word;
        check(at > form_begins[form], "form %d has no words", form);
    }
    form_begins[FORMS] = at;
}

static int digit(uint8_t byte)
{
    return byte >= '0' && byte <= '9' ? byte - '0' : byte >= 'A' && byte <= 'F' ? byte - 'A' + 10 : -1;
}

static void put_address(uint8_t at[ADDRESS_BYTES], unsigned address)
{
    static const char digits[] = "0123456789ABCDEF";

    at[0] = (uint8_t)digits[address >> 8 & 15];
    at[1] = (uint8_t)digits[address >> 4 & 15];
    at[2] = (uint8_t)digits[address & 15];
    at[3] = ' ';
}

size_t put_line(uint8_t at[LINE_BYTES_MOST], unsigned address, uint16_t word)
{
    put_address(at, address);
    memcpy(at + ADDRESS_BYTES, line_of[word].bytes, line_of[word].length);
    return (size_t)ADDRESS_BYTES + line_of[word].length;
}

void text_of(struct text *text, const uint8_t *program, unsigned words)
{
    text->length = 0;
    for (unsigned address = 0; address < words; address++) {
        text->start[address] = text->length;
        text->length += put_line(text->bytes + text->length, address, (uint16_t)two(program + 2 * address));
    }
    text->start[words] = text->length;
}

/* ---- The judge ---- */

struct judged {
    unsigned good_lines;
    bool whole;
    uint8_t program[PROGRAM_BYTES];
};

/* The word of a line whose word stands in these four bytes; -1 where they are no digits. */
static int32_t word_in(const uint8_t *bytes)
{
    int32_t word = 0;

    for (int at = 0; at < 4; at++) {
        if (digit(bytes[at]) < 0)
            return -1;
        word = word << 4 | digit(bytes[at]);
    }
    return word;
}

static void judge(struct judged *judged, struct lent text)
{
    const uint8_t *at = text.bytes;
    size_t left = text.length;
    unsigned address = 0;

    for (; address < WORDS; address++) {
        uint8_t front[ADDRESS_BYTES];
        int32_t word;

        put_address(front, address);
        if (left < ADDRESS_BYTES + 4 || memcmp(at, front, ADDRESS_BYTES) != 0)
            break;
        word = word_in(at + ADDRESS_BYTES);
        if (word < 0 || left < ADDRESS_BYTES + (size_t)line_of[word].length
            || memcmp(at + ADDRESS_BYTES, line_of[word].bytes, line_of[word].length) != 0)
            break;
        set_two(judged->program + 2 * address, (unsigned)word);
        at += ADDRESS_BYTES + line_of[word].length;
        left -= ADDRESS_BYTES + (size_t)line_of[word].length;
    }
    judged->good_lines = address;
    judged->whole = address == WORDS && left == 0;
}

uint32_t read_text(struct lent text, struct lent room)
{
    static struct judged judged;
    uint32_t answer = pair_listing_read(text, room);

    judge(&judged, text);
    if (!judged.whole)
        expect("reading what is no listing", answer, 26, judged.good_lines);
    else if (room.length < PROGRAM_BYTES)
        expect("reading with too little room", answer, 7, PROGRAM_BYTES);
    else {
        expect("reading a listing", answer, 0, 0);
        check(memcmp(after.output, judged.program, PROGRAM_BYTES) == 0, "a listing reads as other words");
        check(memcmp(after.output + PROGRAM_BYTES, room.bytes + PROGRAM_BYTES, room.length - PROGRAM_BYTES) == 0,
              "reading a listing changes the room beyond");
    }
    return answer;
}

/* ---- Programs ---- */

void any_program(uint8_t program[PROGRAM_BYTES], enum kind kind)
{
    if (kind == WHAT_MACHINES_RUN) {
        random_program(program, (enum mix)any(MIXES));
        return;
    }
    for (unsigned address = 0; address < WORDS; address++) {
        unsigned word = any(0x10000);

        if (kind == LISTED_WORDS)
            word = words_by_form[any(form_begins[DATA_FORM])];
        else if (kind == UNLISTED_WORDS)
            word = any_word_of(DATA_FORM);
        else if (kind == ALL_FORMS_ALIKE)
            word = any_word_of((int)any(FORMS));
        else if (kind == MOSTLY_NOPS && any(16) != 0)
            word = 0xFFFF;
        set_two(program + 2 * address, word);
    }
}

/* Written by both sides; answers the length of the listing, the room at the most. */
static size_t write_program(struct lent program, size_t room)
{
    expect("writing a listing", pair_listing_write(program, (struct lent){empty, room}), 0, 0);
    check(after.count <= room && memcmp(after.output + after.count, empty, room - after.count) == 0,
          "writing a listing changes the room beyond its %llu bytes", (unsigned long long)after.count);
    return after.count < room ? (size_t)after.count : room;
}

/* Between them the programs hold every word once, in a scattered order. The lines are noted as they are written;
   answers whether all are. */
static bool all_words(void)
{
    static uint8_t program[PROGRAM_BYTES], text[sizeof empty];
    unsigned long lines = 0, unlisted = 0;

    for (unsigned number = 0; number < PROGRAMS_OF_ALL_WORDS; number++) {
        size_t length, start = 0;

        for (unsigned address = 0; address < WORDS; address++)
            set_two(program + 2 * address, (number * WORDS + address) * 40503u & 0xFFFF);
        length = write_program(LENT(program), sizeof empty);
        memcpy(text, after.output, length);
        for (unsigned address = 0; address < WORDS; address++) {
            unsigned word = two(program + 2 * address);
            const uint8_t *end = memchr(text + start, '\n', length - start);
            size_t bytes = end == NULL ? 0 : (size_t)(end + 1 - (text + start));

            check(bytes > ADDRESS_BYTES && bytes <= LINE_BYTES_MOST, "the line of $%04X has %zu bytes", word, bytes);
            if (bytes <= ADDRESS_BYTES || bytes > LINE_BYTES_MOST)
                return false;
            line_of[word].length = (uint8_t)(bytes - ADDRESS_BYTES);
            memcpy(line_of[word].bytes, text + start + ADDRESS_BYTES, bytes - ADDRESS_BYTES);
            unlisted += bytes == 14 && memcmp(text + start + 9, "DATA", 4) == 0;
            start += bytes;
            lines++;
        }
        check(start == length, "a listing goes on behind its 4,096 lines");
        expect("its own words", read_text((struct lent){text, length}, (struct lent){empty, PROGRAM_BYTES}), 0, 0);
        check(memcmp(after.output, program, sizeof program) == 0, "a listing does not read back");
    }
    check(lines == 0x10000 && unlisted == 9722, "%lu lines, %lu of them DATA", lines, unlisted);
    progress("listings: all 65536 words in %u listings, written and read back, %lu of them DATA; failed so far %lu",
             PROGRAMS_OF_ALL_WORDS, unlisted, failed);
    return true;
}

static void random_programs(unsigned stride)
{
    static uint8_t program[PROGRAM_BYTES];
    static struct text text;
    unsigned long programs = 0, bytes = 0;

    for (unsigned number = 0; number < RANDOM_PROGRAMS; number += stride) {
        any_program(program, (enum kind)(programs++ % KINDS));
        text_of(&text, program, WORDS);
        bytes += text.length;
        check(write_program(LENT(program), text.length + any(2) * any(BEYOND)) == text.length
              && memcmp(after.output, text.bytes, text.length) == 0, "a listing is not made of its words' lines");
        expect("its own words", read_text((struct lent){text.bytes, text.length},
                                          (struct lent){empty, PROGRAM_BYTES + any(2) * any(BEYOND)}), 0, 0);
        check(memcmp(after.output, program, sizeof program) == 0, "a listing does not read back");
    }
    progress("listings: %lu programs at random, %lu bytes of text, written and read back; failed so far %lu", programs,
             bytes, failed);
}

/* ---- Refusals ---- */

static void write_refusals(void)
{
    static const uint16_t lengths[] = {0, 1, 2, 4096, 8190, 8191, 8193, 8194, 16384};
    static uint8_t program[PROGRAM_BYTES], long_area[2 * PROGRAM_BYTES];
    static struct text text;

    for (size_t at = 0; at < sizeof lengths / sizeof lengths[0]; at++)
        for (size_t room = 0; room <= LISTING_BYTES_MOST; room += LISTING_BYTES_MOST / 2)
            expect("a program of another length",
                   pair_listing_write((struct lent){long_area, lengths[at]}, (struct lent){empty, room}), 1,
                   lengths[at]);
    for (unsigned times = 0; times < 4 * KINDS; times++) {
        any_program(program, (enum kind)(times % KINDS));
        text_of(&text, program, WORDS);
        for (size_t less = 1; less <= LINE_BYTES_MOST; less++)
            expect("too little room for a listing",
                   pair_listing_write(LENT(program), (struct lent){empty, text.length - less}), 7, text.length);
        expect("no room", pair_listing_write(LENT(program), (struct lent){empty, 0}), 7, text.length);
        expect("some room", pair_listing_write(LENT(program), (struct lent){empty, any((uint32_t)text.length)}), 7,
               text.length);
        for (size_t more = 0; more < 3; more++)
            check(write_program(LENT(program), text.length + more) == text.length, "a listing of another length");
    }
    for (unsigned form = 0; form < FORMS; form++) {
        uint16_t word = any_word_of((int)form);

        for (unsigned address = 0; address < WORDS; address++)
            set_two(program + 2 * address, word);
        text_of(&text, program, WORDS);
        expect("too little room", pair_listing_write(LENT(program), (struct lent){empty, text.length - 1}), 7,
               text.length);
        check(write_program(LENT(program), sizeof empty) == (size_t)WORDS * (ADDRESS_BYTES + line_of[word].length),
              "a listing of 4,096 times $%04X has another length", word);
    }
}

static void read_refusals(void)
{
    static const uint16_t rooms[] = {0, 1, 2, 4095, 4096, 8190, 8191, 8192, 8193, 16384};
    static uint8_t program[PROGRAM_BYTES];
    static struct text text;

    for (unsigned kind = 0; kind < KINDS; kind++) {
        any_program(program, (enum kind)kind);
        text_of(&text, program, WORDS);
        for (size_t at = 0; at < sizeof rooms / sizeof rooms[0]; at++) {
            struct lent room = {empty, rooms[at]};

            expect("a listing", read_text((struct lent){text.bytes, text.length}, room), rooms[at] < 8192 ? 7 : 0,
                   rooms[at] < 8192 ? 8192 : 0);
            expect("no text", read_text((struct lent){text.bytes, 0}, room), 26, 0);
            expect("no last line feed", read_text((struct lent){text.bytes, text.length - 1}, room), 26, 4095);
            text.bytes[text.length] = (uint8_t)any(256);
            expect("a byte too many", read_text((struct lent){text.bytes, text.length + 1}, room), 26, 4096);
        }
    }
}

void compare_listings(const struct plan *plan)
{
    memset(empty, EMPTY, sizeof empty);
    sort_by_form();
    if (!all_words())
        return;
    random_programs(plan->text_stride);
    write_refusals();
    read_refusals();
    progress("listings: program lengths, rooms, and texts that end too early or too late; failed so far %lu", failed);
    compare_damaged_listings(plan->text_stride);
}
