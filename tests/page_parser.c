/* A page read strictly into a tree. */
#include "page_tree.h"

#include <setjmp.h>
#include <stdint.h>
#include <stdio.h>
#include <stdlib.h>
#include <string.h>

struct parser {
    const char *text, *at, *end;
    const char *why;
    jmp_buf wrong;
};

void *keep_memory(size_t bytes)
{
    void *memory = calloc(1, bytes);

    if (memory == NULL) {
        fprintf(stderr, "not enough memory\n");
        exit(2);
    }
    return memory;
}

static _Noreturn void refuse(struct parser *parser, const char *why)
{
    parser->why = why;
    longjmp(parser->wrong, 1);
}

/* ---- Characters ---- */

/* The bytes of one character that a page may hold: UTF-8 in its shortest form, no controls but the line feed, and
   nothing that a reader would not see or that turns the direction of what follows. */
static size_t character_at(struct parser *parser)
{
    const uint8_t *byte = (const uint8_t *)parser->at;
    size_t left = (size_t)(parser->end - parser->at), length, at;
    uint32_t code;

    if (byte[0] < 0x80) {
        if ((byte[0] < 0x20 && byte[0] != '\n') || byte[0] == 0x7F)
            refuse(parser, "a control character");
        return 1;
    }
    length = byte[0] >= 0xF0 ? 4 : byte[0] >= 0xE0 ? 3 : 2;
    if (byte[0] < 0xC2 || byte[0] > 0xF4 || length > left)
        refuse(parser, "bytes that are no UTF-8");
    code = byte[0] & (0xFFu >> (length + 1));
    for (at = 1; at < length; at++) {
        if ((byte[at] & 0xC0) != 0x80)
            refuse(parser, "bytes that are no UTF-8");
        code = code * 64 + (byte[at] & 0x3F);
    }
    if ((length == 3 && code < 0x800) || (length == 4 && (code < 0x10000 || code > 0x10FFFF))
        || (code >= 0xD800 && code <= 0xDFFF))
        refuse(parser, "bytes that are no UTF-8");
    if (code < 0xA0 || (code >= 0x200B && code <= 0x200F) || (code >= 0x2028 && code <= 0x202E)
        || (code >= 0x2060 && code <= 0x206F) || code == 0xFEFF || (code & 0xFFFE) == 0xFFFE)
        refuse(parser, "a character that shows nothing");
    return length;
}

static const struct {
    const char *written;
    char meant;
} entities[] = {{"&lt;", '<'}, {"&gt;", '>'}, {"&amp;", '&'}, {"&quot;", '"'}, {"&#39;", '\''}};

/* Takes one character, escaped or not, into a text that is growing. */
static void take_character(struct parser *parser, char *text, size_t *length)
{
    if (*parser->at == '&') {
        for (size_t at = 0; at < sizeof entities / sizeof entities[0]; at++) {
            size_t written = strlen(entities[at].written);

            if ((size_t)(parser->end - parser->at) >= written
                && memcmp(parser->at, entities[at].written, written) == 0) {
                text[(*length)++] = entities[at].meant;
                parser->at += written;
                return;
            }
        }
        refuse(parser, "an ampersand that begins none of the known entities");
    }
    for (size_t left = character_at(parser); left > 0; left--)
        text[(*length)++] = *parser->at++;
}

/* The text up to one of some letters, none of which is left out of sight: the page's end is wrong. */
static const char *text_up_to(struct parser *parser, const char *enders)
{
    const char *scan = parser->at;
    size_t length = 0;
    char *text;

    while (scan < parser->end && strchr(enders, *scan) == NULL)
        scan++;
    text = keep_memory((size_t)(scan - parser->at) + 1);
    while (parser->at < parser->end && (*parser->at == '\0' || strchr(enders, *parser->at) == NULL))
        take_character(parser, text, &length);
    if (parser->at == parser->end)
        refuse(parser, "the page ends within an element");
    return text;
}

/* ---- Tags ---- */

static bool takes(struct parser *parser, const char *what)
{
    size_t length = strlen(what);

    if ((size_t)(parser->end - parser->at) < length || memcmp(parser->at, what, length) != 0)
        return false;
    parser->at += length;
    return true;
}

static const char *take_name(struct parser *parser, const char *letters)
{
    size_t length = strspn(parser->at, letters);
    char *name = keep_memory(length + 1);

    if (length == 0)
        refuse(parser, "a name is due");
    memcpy(name, parser->at, length);
    parser->at += length;
    return name;
}

static void take_attribute(struct parser *parser, struct node *node)
{
    struct attribute *attribute = &node->attribute[node->attributes];

    if (node->attributes == ATTRIBUTES_MOST)
        refuse(parser, "too many attributes");
    attribute->name = take_name(parser, "abcdefghijklmnopqrstuvwxyzABCDEFGHIJKLMNOPQRSTUVWXYZ-");
    if (value_of(node, attribute->name) != NULL)
        refuse(parser, "an attribute stands twice");
    if (!takes(parser, "=\""))
        refuse(parser, "an attribute without a value in quotes");
    attribute->value = text_up_to(parser, "\"<>");
    if (!takes(parser, "\""))
        refuse(parser, "an attribute's value has a bare < or >");
    node->attributes++;
}

static struct node *add_node(struct node *parent)
{
    struct node *node = keep_memory(sizeof *node);

    node->parent = parent;
    if (parent != NULL && parent->last != NULL)
        parent->last->next = node;
    else if (parent != NULL)
        parent->first = node;
    if (parent != NULL)
        parent->last = node;
    return node;
}

static bool is_within_svg(const struct node *node)
{
    while (node != NULL && !is_element(node, "svg"))
        node = node->parent;
    return node != NULL;
}

/* A browser closes these by itself, and no others outside of pictures. */
static bool is_void(const char *name)
{
    return strcmp(name, "meta") == 0 || strcmp(name, "wbr") == 0;
}

/* Behind the <. Answers the element if it is open then, else NULL. */
static struct node *take_open_tag(struct parser *parser, struct node *parent)
{
    struct node *node = add_node(parent);
    bool closed;

    node->name = take_name(parser, "abcdefghijklmnopqrstuvwxyz0123456789");
    while (takes(parser, " "))
        take_attribute(parser, node);
    closed = takes(parser, "/");
    if (!takes(parser, ">"))
        refuse(parser, "a tag has no end");
    if (!is_within_svg(node) && closed != is_void(node->name))
        refuse(parser, "a browser would close this element elsewhere");
    return closed ? NULL : node;
}

/* Behind the </. */
static void take_close_tag(struct parser *parser, const struct node *open)
{
    if (!takes(parser, open->name) || !takes(parser, ">"))
        refuse(parser, "an end tag of another element");
}

static struct node *take_root(struct parser *parser)
{
    struct node *root = NULL, *open = NULL;

    if (!takes(parser, "<!DOCTYPE html>\n") || !takes(parser, "<"))
        refuse(parser, "no DOCTYPE and root");
    root = open = take_open_tag(parser, NULL);
    while (open != NULL) {
        if (*parser->at != '<') {
            const char *text = text_up_to(parser, "<>");

            add_node(open)->text = text;
        } else if (takes(parser, "</")) {
            take_close_tag(parser, open);
            open = open->parent;
        } else {
            struct node *inner;

            parser->at++;
            inner = take_open_tag(parser, open);
            open = inner != NULL ? inner : open;
        }
        if (open != NULL && *parser->at == '>')
            refuse(parser, "a bare >");
    }
    if (!takes(parser, "\n") || parser->at != parser->end)
        refuse(parser, "something behind the root");
    return root;
}

static unsigned long line_of(const struct parser *parser)
{
    unsigned long line = 1;

    for (const char *at = parser->text; at < parser->at; at++)
        line += *at == '\n';
    return line;
}

struct node *read_page(const char *text, size_t length, const char **why, unsigned long *line)
{
    struct parser parser = {.text = text, .at = text, .end = text + length};

    if (setjmp(parser.wrong) == 0)
        return take_root(&parser);
    *why = parser.why;
    *line = line_of(&parser);
    return NULL;
}
