/* A page of HTML, put together in memory. It is written so that it is also well-formed XML: what puts markup closes
   what it opens, and whatever comes from a file or the command line goes through put_text. */
#ifndef DESK_PAGE_H
#define DESK_PAGE_H

#include "files.h"

struct page {
    struct bytes text;
    size_t room;
};

/* The caller gives back the page's text. */
void begin_page(struct page *page);

/* Markup as it stands, and markup with numbers or words of the desk's own in it. */
void put(struct page *page, const char *markup);
void put_form(struct page *page, const char *format, ...) __attribute__((format(printf, 2, 3)));

/* A text that may hold anything, as the content of an element or the value of an attribute. What a page cannot hold, or
   would not show as what it is, stands there as \x and the byte's two hex digits: control characters, bytes that are no
   UTF-8, and characters without a shape of their own, such as those that turn the direction of writing. */
void put_text(struct page *page, const char *text);

/* The same for a file's path, which may be broken into lines behind its slashes. */
void put_path(struct page *page, const char *path);

/* Whether put_text shows a text as it is. */
bool is_plain(const char *text);

/* A word of a command line, quoted so that a shell takes it as that word. */
void put_shell_word(struct page *page, const char *word);

/* A number with its sign, a minus that is as wide as a plus. */
void put_signed(struct page *page, long number);

/* A refusal's number, value and meaning. */
void put_refusal(struct page *page, uint32_t number, uint64_t value);

#endif
