/* A page of HTML, put together in memory. */
#define _POSIX_C_SOURCE 200809L
#include "page.h"

#include <stdarg.h>
#include <stdio.h>
#include <stdlib.h>
#include <string.h>

/* ---- Growing memory ---- */

enum { ROOM_FIRST = 1 << 16 };

void begin_page(struct page *page)
{
    page->text = (struct bytes){take_memory(ROOM_FIRST, 1), 0};
    page->room = ROOM_FIRST;
}

static void make_room(struct page *page, size_t more)
{
    size_t needed = page->text.length + more;

    if (needed <= page->room)
        return;
    page->room = 2 * needed;
    page->text.at = more_memory(page->text.at, page->room);
}

static void put_bytes(struct page *page, const char *bytes, size_t length)
{
    make_room(page, length);
    memcpy(page->text.at + page->text.length, bytes, length);
    page->text.length += length;
}

void put(struct page *page, const char *markup)
{
    put_bytes(page, markup, strlen(markup));
}

void put_form(struct page *page, const char *format, ...)
{
    va_list arguments, again;
    int length;

    va_start(arguments, format);
    va_copy(again, arguments);
    length = vsnprintf(NULL, 0, format, arguments);
    va_end(arguments);
    make_room(page, (size_t)length + 1);
    vsnprintf((char *)page->text.at + page->text.length, (size_t)length + 1, format, again);
    va_end(again);
    page->text.length += (size_t)length;
}

/* ---- Characters ---- */

/* The character that begins a text, by how many bytes it has; 0 for a byte that begins no character. The longest form
   of a code, halves of pairs and codes above the last are no characters. */
static size_t character(const char *text, uint32_t *code)
{
    static const uint32_t least[] = {0, 0, 0x80, 0x800, 0x10000};
    const uint8_t *at = (const uint8_t *)text;
    size_t length = at[0] < 0x80 ? 1 : at[0] >> 5 == 6 ? 2 : at[0] >> 4 == 14 ? 3 : at[0] >> 3 == 30 ? 4 : 0;

    if (length == 0)
        return 0;
    *code = length == 1 ? at[0] : at[0] & (0x7Fu >> length);
    for (size_t place = 1; place < length; place++) {
        if (at[place] >> 6 != 2)
            return 0;
        *code = *code << 6 | (at[place] & 0x3Fu);
    }
    return *code < least[length] || *code > 0x10FFFF || (*code >= 0xD800 && *code <= 0xDFFF) ? 0 : length;
}

/* Characters that a page cannot hold, or that show nothing by themselves: controls, blanks without width, line and
   paragraph ends, marks of direction, and codes that are no characters. */
static bool is_shown(uint32_t code)
{
    static const struct {
        uint32_t first, last;
    } hidden[] = {{0x00, 0x1F},     {0x7F, 0x9F},     {0xAD, 0xAD},     {0x61C, 0x61C},   {0x180E, 0x180E},
                  {0x200B, 0x200F}, {0x2028, 0x202E}, {0x2060, 0x206F}, {0xFDD0, 0xFDEF}, {0xFEFF, 0xFEFF},
                  {0xFFF0, 0xFFFB}, {0xE0000, 0xE0FFF}};

    for (size_t at = 0; at < sizeof hidden / sizeof hidden[0]; at++)
        if (code >= hidden[at].first && code <= hidden[at].last)
            return false;
    return (code & 0xFFFE) != 0xFFFE;
}

/* How many bytes of a text are one character that is shown as it is, 0 where the first byte is not. */
static size_t shown_character(const char *text)
{
    uint32_t code;
    size_t length = character(text, &code);

    return length > 0 && is_shown(code) ? length : 0;
}

bool is_plain(const char *text)
{
    while (*text != '\0') {
        size_t length = shown_character(text);

        if (length == 0)
            return false;
        text += length;
    }
    return true;
}

static void put_character(struct page *page, const char *text, size_t length)
{
    switch (*text) {
    case '<':
        put(page, "&lt;");
        break;
    case '>':
        put(page, "&gt;");
        break;
    case '&':
        put(page, "&amp;");
        break;
    case '"':
        put(page, "&quot;");
        break;
    case '\'':
        put(page, "&#39;");
        break;
    default:
        put_bytes(page, text, length);
        break;
    }
}

/* Puts the first character of a text, or its first byte by its digits, and answers where the rest begins. */
static const char *put_first(struct page *page, const char *text)
{
    size_t length = shown_character(text);

    if (length > 0)
        put_character(page, text, length);
    else
        put_form(page, "\\x%02X", (uint8_t)*text);
    return text + (length > 0 ? length : 1);
}

void put_text(struct page *page, const char *text)
{
    while (*text != '\0')
        text = put_first(page, text);
}

void put_path(struct page *page, const char *path)
{
    while (*path != '\0') {
        bool may_break = *path == '/' && path[1] != '\0';

        path = put_first(page, path);
        if (may_break)
            put(page, "<wbr/>");
    }
}

/* ---- Words ---- */

/* In quotes as they are, but for quotes themselves, which stand between quoted parts. What is not plain has the quotes
   of $'...', in which a byte is written by its three octal digits: of hex digits shells take different numbers. */
void put_shell_word(struct page *page, const char *word)
{
    static const char bare[] = "ABCDEFGHIJKLMNOPQRSTUVWXYZabcdefghijklmnopqrstuvwxyz0123456789-_./=:,+@%";
    bool plain = is_plain(word);

    if (*word != '\0' && word[strspn(word, bare)] == '\0') {
        put(page, word);
        return;
    }
    put_text(page, plain ? "'" : "$'");
    while (*word != '\0') {
        size_t length = shown_character(word);

        if (*word == '\'')
            put_text(page, plain ? "'\\''" : "\\'");
        else if (*word == '\\' && !plain)
            put_text(page, "\\\\");
        else if (length > 0)
            put_character(page, word, length);
        else
            put_form(page, "\\%03o", (uint8_t)*word);
        word += length > 0 ? length : 1;
    }
    put_text(page, "'");
}

void put_signed(struct page *page, long number)
{
    put_form(page, "%s%ld", number < 0 ? "\u2212" : "", number < 0 ? -number : number);
}

void put_refusal(struct page *page, uint32_t number, uint64_t value)
{
    char *words = NULL;
    size_t length;
    FILE *to = open_memstream(&words, &length);

    if (to == NULL)
        fail("not enough memory");
    describe_refusal(to, number, value);
    if (fclose(to) != 0)
        fail("not enough memory");
    put_text(page, words);
    free(words);
}
