/* Why a text is no listing, in words. */
#include "explain.h"

#include "mnemonics.h"
#include "plural.h"
#include "texts.h"

#include <ctype.h>
#include <stdio.h>
#include <string.h>

const char listing_help[] =
    "A listing has a line for each of the 4,096 addresses, ascending, each ended by one line feed and no CR:\n"
    "  013 3CA0 STA 0A0       address, word, mnemonic and operands, with one space between them\n"
    "  011 48A0 ADIM 020 1    all digits are hexadecimal, all letters capitals; there is no $ and no comma\n"
    "  A34 8923 BNC 123       a branch and CALL have the word's own eleven bits\n"
    "  029 CB80 DATA          a word that is no instruction\n";

/* As many bytes of a line and of an item as are shown. */
enum { LINE_SHOWN = 60, ITEM_SHOWN = 12 };

struct part {
    const uint8_t *at;
    size_t length;
};

/* ---- What is seen of a text ---- */

/* In quotes, with every byte that would not be seen as itself made visible. */
static void show_quoted(struct part part, size_t most)
{
    size_t shown = part.length < most ? part.length : most;

    fprintf(stderr, "\"");
    for (size_t at = 0; at < shown; at++) {
        uint8_t byte = part.at[at];

        if (byte == '\r')
            fprintf(stderr, "\\r");
        else if (byte == '\n')
            fprintf(stderr, "\\n");
        else if (byte == '\t')
            fprintf(stderr, "\\t");
        else if (byte < ' ' || byte > '~')
            fprintf(stderr, "\\x%02X", byte);
        else
            fprintf(stderr, "%s%c", byte == '"' || byte == '\\' ? "\\" : "", byte);
    }
    fprintf(stderr, "\"");
    if (shown < part.length)
        fprintf(stderr, " and %zu byte%s more", part.length - shown, plural(part.length - shown));
}

static void cut_front(struct part *part, size_t length)
{
    part->at += length;
    part->length -= length;
}

static bool is_part(struct part part, const char *text)
{
    return part.length == strlen(text) && memcmp(part.at, text, part.length) == 0;
}

static bool is_blank(uint8_t byte)
{
    return byte == ' ' || byte == '\t';
}

/* Cuts off the next item of a line and the blanks before it. */
static struct part next_item(struct part *rest)
{
    struct part item;

    while (rest->length > 0 && is_blank(*rest->at))
        cut_front(rest, 1);
    item = (struct part){rest->at, 0};
    while (rest->length > 0 && !is_blank(*rest->at)) {
        item.length++;
        cut_front(rest, 1);
    }
    return item;
}

/* Whether an item is a number of so many hexadecimal digits, capitals or not. */
static bool is_hex(struct part item, size_t digits, unsigned *number)
{
    char text[8] = "$";
    unsigned long long read;

    if (item.length != digits)
        return false;
    memcpy(text + 1, item.at, digits);
    if (!number_from(text, 1 + digits, 0xFFFF, &read))
        return false;
    *number = (unsigned)read;
    return true;
}

/* ---- What is wrong with a line ---- */

static void say_mark(struct part *line)
{
    static const struct {
        const char *bytes, *said;
    } marks[] = {{"\xEF\xBB\xBF", "UTF-8 (EF BB BF)"}, {"\xFF\xFE", "UTF-16 (FF FE)"}, {"\xFE\xFF", "UTF-16 (FE FF)"}};

    for (size_t at = 0; at < sizeof marks / sizeof marks[0]; at++) {
        size_t length = strlen(marks[at].bytes);

        if (line->length >= length && memcmp(line->at, marks[at].bytes, length) == 0) {
            fprintf(stderr, "  the file begins with the byte order mark of %s; a listing has none\n", marks[at].said);
            cut_front(line, length);
            return;
        }
    }
}

static void say_letters(struct part line)
{
    for (size_t at = 0; at < line.length; at++)
        if (line.at[at] >= 'a' && line.at[at] <= 'z') {
            fprintf(stderr, "  it has small letters; a listing has capitals alone\n");
            break;
        }
    for (size_t at = 0; at < line.length; at++)
        if (line.at[at] != ' ' && (line.at[at] >= 128 || !isalnum(line.at[at]))) {
            fprintf(stderr, "  it has ");
            show_quoted((struct part){line.at + at, 1}, ITEM_SHOWN);
            fprintf(stderr, "; a listing has digits, capitals, spaces and line feeds alone\n");
            break;
        }
}

/* Answers whether the line has anything but blanks. */
static bool say_blanks(struct part line)
{
    size_t from = 0, end = line.length;

    while (from < end && is_blank(line.at[from]))
        from++;
    while (end > from && is_blank(line.at[end - 1]))
        end--;
    if (from == end) {
        fprintf(stderr, "  no address, no word and no mnemonic stand in it\n");
        return false;
    }
    if (from > 0)
        fprintf(stderr, "  it has a blank before the address\n");
    if (end < line.length)
        fprintf(stderr, "  it has a blank at its end\n");
    for (size_t at = from; at + 1 < end; at++)
        if (is_blank(line.at[at]) && is_blank(line.at[at + 1])) {
            fprintf(stderr, "  it has more than one blank between two items; one space is due\n");
            break;
        }
    return true;
}

/* The line of a word at an address, by the library. */
static void line_of(unsigned address, unsigned word, char line[GALHOVEIA_LINE_BYTES_MOST])
{
    uint8_t program[GALHOVEIA_PROGRAM_BYTES] = {0};
    struct lines lines;

    program[2 * address] = (uint8_t)(word >> 8);
    program[2 * address + 1] = (uint8_t)word;
    list_lines(program, &lines);
    memcpy(line, lines.at[address], GALHOVEIA_LINE_BYTES_MOST);
}

/* What stands where the mnemonic and its operands are due may be those of another word. */
static void say_other_word(struct part text, unsigned word)
{
    char asked[TEXT_ROOM];
    uint16_t other;

    if (text.length >= sizeof asked || memchr(text.at, 0, text.length) != NULL)
        return;
    memcpy(asked, text.at, text.length);
    asked[text.length] = '\0';
    if (word_of(chip_mnemonics(), asked, &other) && other != word)
        fprintf(stderr, "  %s is the word %04X\n", asked, other);
}

static void say_items(struct part line, unsigned address)
{
    struct part rest = line, first = next_item(&rest), second = next_item(&rest);
    char due[GALHOVEIA_LINE_BYTES_MOST];
    unsigned found, word;

    if (!is_hex(first, 3, &found) || found != address) {
        fprintf(stderr, "  its first item is ");
        show_quoted(first, ITEM_SHOWN);
        fprintf(stderr, ", not the address %03X\n", address);
        return;
    }
    if (!is_hex(second, 4, &word)) {
        fprintf(stderr, "  behind the address it has no word of four hexadecimal digits\n");
        return;
    }
    line_of(address, word, due);
    if (is_part(line, due))
        return;
    fprintf(stderr, "  the word %04X is written %s; its line is \"%s\"\n", word, due + LINE_MNEMONIC, due);
    if (rest.length > 0)
        say_other_word((struct part){rest.at + 1, rest.length - 1}, word);
}

/* What no listing has there: before the line's text, at its end, and in it. */
static void say_faults(struct part line, bool has_feed, unsigned address)
{
    if (address == 0)
        say_mark(&line);
    if (!has_feed)
        fprintf(stderr, "  the file ends in it, and the line feed at its end is missing\n");
    else if (line.length > 0 && line.at[line.length - 1] == '\r') {
        fprintf(stderr, "  it ends in CR LF; a listing's lines end in LF alone\n");
        line.length--;
    }
    say_letters(line);
    if (say_blanks(line))
        say_items(line, address);
}

void explain_listing(struct bytes text, uint64_t good)
{
    struct part rest = {text.at, text.length};
    const uint8_t *feed;

    for (uint64_t line = 0; line < good; line++) {
        feed = memchr(rest.at, '\n', rest.length);
        if (feed == NULL)
            return;
        cut_front(&rest, (size_t)(feed + 1 - rest.at));
    }
    if (good >= GALHOVEIA_WORDS) {
        fprintf(stderr, "  behind the last line, that of address FFF, %zu byte%s: ", rest.length,
                rest.length == 1 ? " stands" : "s stand");
        show_quoted(rest, LINE_SHOWN);
        fprintf(stderr, "\n");
        return;
    }
    if (rest.length == 0) {
        fprintf(stderr, text.length == 0 ? "  the file is empty" : "  the file ends before this line");
        fprintf(stderr, "; a listing has %d lines\n", GALHOVEIA_WORDS);
        return;
    }
    feed = memchr(rest.at, '\n', rest.length);
    if (feed != NULL)
        rest.length = (size_t)(feed - rest.at);
    fprintf(stderr, "  line %llu is ", (unsigned long long)good + 1);
    show_quoted(rest, LINE_SHOWN);
    fprintf(stderr, "\n");
    say_faults(rest, feed != NULL, (unsigned)good);
}
