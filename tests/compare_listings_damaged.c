/* Damaged listings. Both readers must come to the same end on each, and to the judge's (compare_listings.h): short
   texts, with one damage at every byte of the line of every word, and whole listings with one damage anywhere, or
   many. */
#include "compare_listings.h"

#include <string.h>

enum {
    WHOLE_TEXTS = 40000, TEXTS_WITH_MANY = 3000, MANY = 2000, DAMAGED_BYTES_AT_LEAST = 10000000, WORDS_OF_EACH_FORM = 3,
    CHANGES_AT_EACH_BYTE = 6, SHORT_ROOM = 16
};

enum damage {
    CHANGED, LOST, DOUBLED, ADDED, LOWERED, BLANK_AT_END, CARRIAGE_RETURN, APPENDED, CUT, LINES_SWAPPED, LINE_LOST,
    LINE_TWICE, OTHER_ADDRESS, OTHER_WORD, OTHER_OPERAND, BY_ITEMS, DAMAGES = BY_ITEMS + ITEM_DAMAGES
};

static const char *const damage_name[DAMAGES] = {
    "a byte changed", "a byte lost", "a byte doubled", "a byte added", "lower case", "a blank at a line's end",
    "CR LF", "a byte appended", "a cut", "lines swapped", "a line lost", "a line twice", "another address",
    "another word", "another operand", "another word's line", "another word's meaning", "another mnemonic",
    "items swapped", "an item lost", "an item twice",
};

/* What was damaged and what came of it. A byte counts where it was changed, lost, doubled or added; a cut counts none,
   nor do lines and items that were swapped, lost, doubled or replaced as a whole. */
static struct {
    unsigned long texts, bytes;
    unsigned long with_one; /* texts with one damaged byte, or a damage that counts none */
    unsigned long by_damage[DAMAGES], by_form[FORMS];
    unsigned long good, told_first, told_between, told_last, told_behind;
    unsigned long good_lines; /* of the short texts, which are no listings: those in which every line is good */
} seen;

static uint8_t room[PROGRAM_BYTES + SHORT_ROOM];

static void note(enum damage damage, int form, unsigned long bytes)
{
    seen.texts++;
    seen.bytes += bytes;
    seen.with_one += bytes <= 1;
    seen.by_damage[damage]++;
    seen.by_form[form]++;
}

/* A refused text tells how far it is good; one that is taken is again a listing. */
static void try_text(const struct text *text, size_t room_length)
{
    uint32_t answer = read_text((struct lent){text->bytes, text->length}, (struct lent){room, room_length});

    seen.good += answer == 0;
    if (answer != 26)
        return;
    if (after.value == 0)
        seen.told_first++;
    else if (after.value < WORDS - 1)
        seen.told_between++;
    else if (after.value == WORDS - 1)
        seen.told_last++;
    else
        seen.told_behind++;
}

/* ---- Damage ---- */

static void add_bytes(struct text *text, size_t at, const uint8_t *bytes, size_t count)
{
    memmove(text->bytes + at + count, text->bytes + at, text->length - at);
    memcpy(text->bytes + at, bytes, count);
    text->length += count;
}

static void add_byte(struct text *text, size_t at, uint8_t byte)
{
    add_bytes(text, at, &byte, 1);
}

static void lose_bytes(struct text *text, size_t at, size_t count)
{
    memmove(text->bytes + at, text->bytes + at + count, text->length - at - count);
    text->length -= count;
}

static uint8_t other_digit_than(uint8_t byte)
{
    uint8_t other;

    do
        other = (uint8_t)"0123456789ABCDEF"[any(16)];
    while (other == byte);
    return other;
}

/* Another byte, mostly one that could stand in a listing, or nearly. */
static uint8_t other_than(uint8_t byte)
{
    static const char likely[] = " \n\r\t$,.:;0123456789ABCDEFabcdefGghOoIMTXx-+_";
    uint8_t other;

    switch (any(6)) {
    case 0:
        other = (uint8_t)(byte ^ 1u << any(8));
        break;
    case 1:
        other = other_digit_than(byte);
        break;
    case 2:
        other = (uint8_t)('A' + any(26));
        break;
    case 3:
        other = (uint8_t)likely[any(sizeof likely - 1)];
        break;
    case 4:
        other = (uint8_t)(byte + (any(2) ? 1 : 255));
        break;
    default:
        other = (uint8_t)any(256);
        break;
    }
    return other != byte ? other : (uint8_t)(byte ^ 0x20);
}

/* Damages one byte; answers how. */
static enum damage damage_byte(struct text *text, size_t at)
{
    enum damage damage = (enum damage)any(ADDED + 1);

    if (damage == CHANGED)
        text->bytes[at] = other_than(text->bytes[at]);
    else if (damage == LOST)
        lose_bytes(text, at, 1);
    else
        add_byte(text, at, damage == DOUBLED ? text->bytes[at] : other_than(text->bytes[at]));
    return damage;
}

/* ---- The line of every word ---- */

static struct text damaged;

static struct {
    struct text text;
    int form;         /* of the line that is damaged, */
    unsigned address; /* which stands here, one line before the last */
} intact;

static void copy_text(const struct text *text)
{
    damaged.length = text->length;
    memcpy(damaged.bytes, text->bytes, text->length);
}

/* Damages the items of a line until it is another. */
static void damage_items(enum damage damage, size_t start, size_t length, unsigned address, uint16_t word)
{
    struct line line;

    do
        line = damaged_line((enum item_damage)(damage - BY_ITEMS), address, word);
    while (line.length == length && memcmp(line.bytes, damaged.bytes + start, length) == 0);
    lose_bytes(&damaged, start, length);
    add_bytes(&damaged, start, line.bytes, line.length);
}

static void try_short(enum damage damage, unsigned long bytes)
{
    note(damage, intact.form, bytes);
    try_text(&damaged, SHORT_ROOM);
    seen.good_lines += after.value == intact.address + 2;
}

static void try_change(size_t at, uint8_t byte)
{
    copy_text(&intact.text);
    damaged.bytes[at] = byte;
    try_short(CHANGED, 1);
}

static void try_loss(size_t at)
{
    copy_text(&intact.text);
    lose_bytes(&damaged, at, 1);
    try_short(LOST, 1);
}

static void try_addition(size_t at, uint8_t byte)
{
    copy_text(&intact.text);
    add_byte(&damaged, at, byte);
    try_short(byte == intact.text.bytes[at] ? DOUBLED : ADDED, 1);
}

/* Up to three good lines, the line of a word, and another line behind it. */
static void short_text(uint16_t word)
{
    uint8_t words[2 * 5];

    intact.form = form_of(word);
    intact.address = any(4);
    for (unsigned at = 0; at < intact.address + 2; at++)
        set_two(words + 2 * at, at == intact.address ? word : any_word_of((int)any(FORMS)));
    text_of(&intact.text, words, intact.address + 2);
}

static void try_items(uint16_t word)
{
    size_t start = intact.text.start[intact.address], end = intact.text.start[intact.address + 1];

    for (int damage = BY_ITEMS; damage < DAMAGES; damage++) {
        copy_text(&intact.text);
        damage_items((enum damage)damage, start, end - start, intact.address, word);
        try_short((enum damage)damage, 0);
    }
}

static void every_word(unsigned stride)
{
    for (uint32_t word = any(stride); word <= 0xFFFF; word += stride) {
        short_text((uint16_t)word);
        try_items((uint16_t)word);
        for (size_t at = intact.text.start[intact.address]; at < intact.text.start[intact.address + 1]; at++) {
            uint8_t byte = intact.text.bytes[at];

            for (int times = 0; times < CHANGES_AT_EACH_BYTE; times++)
                try_change(at, other_than(byte));
            try_loss(at);
            try_addition(at, byte);
            try_addition(at, other_than(byte));
        }
    }
    progress("listings: the line of one word in %u, damaged by items and at every byte, %lu times; failed so far %lu",
             stride, seen.texts, failed);
}

/* Some words of each form, each byte of their lines as every other byte, and with every byte in front of it. */
static void every_byte(unsigned stride)
{
    unsigned long before = seen.texts;

    for (int number = 0; number < FORMS * WORDS_OF_EACH_FORM; number++) {
        short_text(any_word_of(number % FORMS));
        for (size_t at = intact.text.start[intact.address] + any(stride); at < intact.text.start[intact.address + 1];
             at += stride) {
            try_loss(at);
            for (unsigned byte = 0; byte < 256; byte++) {
                if (byte != intact.text.bytes[at])
                    try_change(at, (uint8_t)byte);
                try_addition(at, (uint8_t)byte);
            }
        }
    }
    progress("listings: every byte in the place and in front of those of some lines of each form, %lu times; failed so "
             "far %lu", seen.texts - before, failed);
}

/* ---- Whole listings ---- */

static uint8_t program[PROGRAM_BYTES];
static struct text whole;

static unsigned any_line(void)
{
    switch (any(8)) {
    case 0:
        return any(3);
    case 1:
        return WORDS - 1 - any(3);
    default:
        return any(WORDS);
    }
}

static size_t line_length(unsigned line)
{
    return whole.start[line + 1] - whole.start[line];
}

/* Damages the copy of the whole text in one way; answers how many bytes count as damaged. */
static unsigned long damage_once(enum damage damage, unsigned line)
{
    size_t start = whole.start[line], length = line_length(line), at = start + any((uint32_t)length);

    switch (damage) {
    case CHANGED:
        damaged.bytes[at] = other_than(damaged.bytes[at]);
        return 1;
    case LOST:
        lose_bytes(&damaged, at, 1);
        return 1;
    case DOUBLED:
        add_byte(&damaged, at, whole.bytes[at]);
        return 1;
    case ADDED:
        add_byte(&damaged, at, other_than(whole.bytes[at]));
        return 1;
    case LOWERED: /* any of the line's letters; the mnemonic has some */
        while (damaged.bytes[at] < 'A')
            at = start + any((uint32_t)length);
        damaged.bytes[at] |= 0x20;
        return 1;
    case BLANK_AT_END:
        add_byte(&damaged, start + length - 1, ' ');
        return 1;
    case CARRIAGE_RETURN:
        add_byte(&damaged, start + length - 1, '\r');
        return 1;
    case APPENDED:
        add_byte(&damaged, damaged.length, any(4) ? (uint8_t)any(256) : '\n');
        return 1;
    case CUT:
        damaged.length = at;
        return 0;
    case LINES_SWAPPED: /* with the next, or where there is none with the one before */
        line -= line == WORDS - 1;
        memcpy(damaged.bytes + whole.start[line], whole.bytes + whole.start[line + 1], line_length(line + 1));
        memcpy(damaged.bytes + whole.start[line] + line_length(line + 1), whole.bytes + whole.start[line],
               line_length(line));
        return 0;
    case LINE_LOST:
        lose_bytes(&damaged, start, length);
        return 0;
    case LINE_TWICE:
        add_bytes(&damaged, start, whole.bytes + start, length);
        return 0;
    case OTHER_ADDRESS:
        at = start + any(3);
        damaged.bytes[at] = other_digit_than(damaged.bytes[at]);
        return 1;
    case OTHER_WORD:
        at = start + 4 + any(4);
        damaged.bytes[at] = other_digit_than(damaged.bytes[at]);
        return 1;
    case OTHER_OPERAND: /* the last byte of the last item, a digit or a letter */
        at = start + length - 2;
        damaged.bytes[at] = other_digit_than(damaged.bytes[at]);
        return 1;
    default:
        damage_items(damage, start, length, line, (uint16_t)two(program + 2 * line));
        return 0;
    }
}

static void whole_texts(unsigned stride)
{
    unsigned long texts = 0, before = seen.texts;

    for (unsigned number = 0; number < WHOLE_TEXTS; number += stride) {
        enum damage damage = (enum damage)(texts % DAMAGES);
        unsigned line = any_line();
        unsigned long bytes;

        if (texts++ % 100 == 0) {
            any_program(program, (enum kind)any(KINDS));
            text_of(&whole, program, WORDS);
        }
        copy_text(&whole);
        bytes = damage_once(damage, line);
        note(damage, form_of((uint16_t)two(program + 2 * line)), bytes);
        try_text(&damaged, any(16) ? PROGRAM_BYTES : any(sizeof room));
    }
    progress("listings: %lu whole listings with one damage; failed so far %lu", seen.texts - before, failed);
}

/* CR LF at the end of every line. */
static void all_line_ends(void)
{
    for (int kind = 0; kind < KINDS; kind++) {
        any_program(program, (enum kind)kind);
        text_of(&whole, program, WORDS);
        copy_text(&whole);
        for (unsigned line = WORDS; line > 0; line--)
            add_byte(&damaged, whole.start[line] - 1, '\r');
        note(CARRIAGE_RETURN, form_of((uint16_t)two(program)), WORDS);
        try_text(&damaged, PROGRAM_BYTES);
    }
}

/* The last line, at every byte: a reader must have taken all others before it sees the damage. */
static void last_line(unsigned stride)
{
    unsigned long before = seen.texts;
    int form;

    any_program(program, ALL_FORMS_ALIKE);
    text_of(&whole, program, WORDS);
    form = form_of((uint16_t)two(program + 2 * (WORDS - 1)));
    for (size_t at = whole.start[WORDS - 1]; at < whole.length; at++)
        for (unsigned byte = any(stride); byte < 256; byte += stride) {
            copy_text(&whole);
            damaged.bytes[at] = (uint8_t)byte;
            if (byte == whole.bytes[at])
                lose_bytes(&damaged, at, 1);
            note(byte == whole.bytes[at] ? LOST : CHANGED, form, 1);
            try_text(&damaged, PROGRAM_BYTES);
        }
    progress("listings: every byte in the place of those of a last line, %lu times; failed so far %lu",
             seen.texts - before, failed);
}

/* Scattered over the text, or one after the other, from some line on. */
static void many_damages(unsigned stride)
{
    unsigned long before = seen.texts, bytes = seen.bytes;

    for (unsigned number = 0; number < TEXTS_WITH_MANY; number += stride) {
        unsigned line = any_line(), count = 2 + any(any(4) ? 20 : MANY);
        bool in_a_row = any(2);
        enum damage damage = CHANGED;

        if (number % 100 < stride) {
            any_program(program, (enum kind)any(KINDS));
            text_of(&whole, program, WORDS);
        }
        copy_text(&whole);
        for (unsigned done = 0; done < count; done++) {
            size_t from = whole.start[line] + (in_a_row ? done : 0);

            if (from >= damaged.length) {
                count = done;
                break;
            }
            damage = damage_byte(&damaged, in_a_row ? from : from + any((uint32_t)(damaged.length - from)));
        }
        note(damage, form_of((uint16_t)two(program + 2 * line)), count);
        try_text(&damaged, PROGRAM_BYTES);
    }
    progress("listings: %lu whole listings with several damages, %lu bytes; failed so far %lu", seen.texts - before,
             seen.bytes - bytes, failed);
}

/* Each kind of damage, on each form, with each kind of end. */
static void check_seen(unsigned stride)
{
    for (int damage = 0; damage < DAMAGES; damage++)
        check(seen.by_damage[damage] > 0, "no text was damaged by: %s", damage_name[damage]);
    for (int form = 0; form < FORMS; form++)
        check(seen.by_form[form] > 0, "no line of %s was damaged",
              form == DATA_FORM ? "DATA" : instruction_name((enum mnemonic)form));
    check(seen.good > 0 && seen.good_lines > 0, "%lu damaged texts are again listings, %lu short ones have good lines",
          seen.good, seen.good_lines);
    check(seen.told_first > 0 && seen.told_between > 0 && seen.told_last > 0 && seen.told_behind > 0,
          "damaged texts are bad from line 0 on %lu times, from 4,095 on %lu, from 4,096 on %lu, between %lu",
          seen.told_first, seen.told_last, seen.told_behind, seen.told_between);
    check(seen.bytes * stride >= DAMAGED_BYTES_AT_LEAST, "%lu bytes were damaged", seen.bytes);
    progress("listings: %lu damaged texts, %lu of them with one damage; %lu damaged bytes; failed so far %lu",
             seen.texts, seen.with_one, seen.bytes, failed);
    progress("listings: of these again listings %lu, short ones with good lines %lu; bad from line 0 on %lu, from 4095 "
             "on %lu, from 4096 on %lu, between %lu", seen.good, seen.good_lines, seen.told_first, seen.told_last,
             seen.told_behind, seen.told_between);
}

void compare_damaged_listings(unsigned stride)
{
    memset(room, 0xEE, sizeof room);
    every_word(stride);
    every_byte(stride);
    whole_texts(stride);
    all_line_ends();
    last_line(stride);
    many_damages(stride);
    check_seen(stride);
}
