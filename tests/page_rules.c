/* Rules of any report's page: what it links to is there, it fetches nothing, a browser nests it as it is written, and
   it can be read aloud. */
#include "page_check.h"

#include <stdlib.h>
#include <string.h>

/* Every element that a page has. None fetches anything by itself. */
static const char *const allowed[] = {
    "html", "head", "meta", "title", "style", "body", "header", "nav", "main", "section", "div", "h1", "h2", "h3", "p",
    "dl", "dt", "dd", "ol", "ul", "li", "table", "thead", "tbody", "tr", "th", "td", "a", "b", "strong", "small",
    "code", "pre", "span", "wbr", "svg", "g", "desc", "rect", "circle", "path", "polygon", "text"};

static bool is_among(const char *name, const char *const *names, size_t count)
{
    for (size_t at = 0; at < count; at++)
        if (strcmp(name, names[at]) == 0)
            return true;
    return false;
}

/* A browser closes a paragraph or a heading before any of these. */
static bool is_block(const struct node *node)
{
    static const char *const blocks[] = {"header", "nav", "main", "section", "div", "h1", "h2", "h3", "p",
                                         "dl",     "ol",  "ul",   "table",   "pre", "svg"};

    return is_among(node->name, blocks, sizeof blocks / sizeof blocks[0]);
}

static void check_nesting(const struct node *node)
{
    static const char *const lines[] = {"h1", "h2", "h3", "p", "dt", "a", "code", "b", "strong", "small", "span"};

    for (const struct node *outer = node->parent; is_block(node) && outer != NULL; outer = outer->parent)
        check(!is_among(outer->name, lines, sizeof lines / sizeof lines[0]), "<%s> stands within <%s>", node->name,
              outer->name);
    if (is_element(node, "a"))
        for (const struct node *outer = node->parent; outer != NULL; outer = outer->parent)
            check(!is_element(outer, "a"), "a link within a link");
}

static void check_attribute(struct node *root, const struct node *node, const struct attribute *attribute)
{
    static const char *const spaces[] = {"http://www.w3.org/1999/xhtml", "http://www.w3.org/2000/svg"};
    static const char *const names[] = {
        "lang", "charset", "name", "content", "id", "class", "href", "scope", "colspan", "role", "d", "x", "y", "r",
        "rx", "width", "height", "viewBox", "transform", "points", "aria-label", "aria-labelledby", "data-place",
        "data-events", "data-more", "data-element", "data-lit", "data-cell", "data-bit", "data-left-out",
        "data-refusal", "data-value"};

    if (strcmp(attribute->name, "xmlns") == 0) {
        check(strcmp(attribute->value, spaces[is_element(node, "svg")]) == 0, "another name space");
        return;
    }
    check(is_among(attribute->name, names, sizeof names / sizeof names[0]), "the attribute %s", attribute->name);
    check(strstr(attribute->value, "//") == NULL && strstr(attribute->value, "url(") == NULL,
          "%s=\"%s\" leads out of the page", attribute->name, attribute->value);
    if (strcmp(attribute->name, "href") == 0)
        check(attribute->value[0] == '#' && with_id(root, attribute->value + 1) != NULL, "%s has no target",
              attribute->value);
}

static int by_text(const void *one, const void *other)
{
    return strcmp(*(const char *const *)one, *(const char *const *)other);
}

static void check_ids(struct node *root)
{
    const char **ids;
    size_t count = 0;

    for (struct node *node = root; node != NULL; node = next_in(root, node))
        count += value_of(node, "id") != NULL;
    ids = keep_memory((count + 1) * sizeof *ids);
    count = 0;
    for (struct node *node = root; node != NULL; node = next_in(root, node))
        if (value_of(node, "id") != NULL)
            ids[count++] = value_of(node, "id");
    qsort(ids, count, sizeof *ids, by_text);
    for (size_t at = 0; at < count; at++)
        check(ids[at][0] != '\0' && strchr(ids[at], ' ') == NULL && (at == 0 || strcmp(ids[at - 1], ids[at]) != 0),
              "the id %s stands twice or is none", ids[at]);
}

/* What a picture says to those who do not see it. */
static void check_picture(struct node *svg)
{
    struct node *title = find(svg, "title", NULL), *desc = find(svg, "desc", NULL);
    const char *role = value_of(svg, "role"), *labelled = value_of(svg, "aria-labelledby");
    char wanted[128] = "";

    check(role != NULL && strcmp(role, "img") == 0 && labelled != NULL, "a picture without its role and label");
    check(title != NULL && title->parent == svg && desc != NULL && desc->parent == svg,
          "a picture without title and desc");
    if (title == NULL || desc == NULL || labelled == NULL)
        return;
    check(value_of(title, "id") != NULL && value_of(desc, "id") != NULL, "a picture's title or desc has no id");
    if (value_of(title, "id") == NULL || value_of(desc, "id") == NULL)
        return;
    strncat(wanted, value_of(title, "id"), 50);
    strcat(wanted, " ");
    strncat(wanted, value_of(desc, "id"), 50);
    check(strcmp(wanted, labelled) == 0, "a picture's label is %s", labelled);
    check(text_of(title)[0] != '\0' && text_of(desc)[0] != '\0', "a picture's title or desc is empty");
}

/* Headings go down a step at a time, and there is one of the first step. */
static void check_headings(struct node *root)
{
    int last = 0, firsts = 0;

    for (struct node *node = root; node != NULL; node = next_in(root, node)) {
        if (node->name == NULL || node->name[0] != 'h' || node->name[1] < '1' || node->name[1] > '6')
            continue;
        check(node->name[1] - '0' <= last + 1 && text_of(node)[0] != '\0', "the heading %s", text_of(node));
        last = node->name[1] - '0';
        firsts += last == 1;
    }
    check(firsts == 1, "%d headings of the first step", firsts);
}

static void check_style(struct node *root)
{
    struct node *style = find(root, "style", NULL);
    const char *text = style != NULL ? text_of(style) : "";

    check(style != NULL && find_next(root, style, "style", NULL) == NULL, "not one stylesheet");
    check(strstr(text, "url(") == NULL && strstr(text, "@import") == NULL && strstr(text, "//") == NULL
              && strchr(text, '\\') == NULL, "the stylesheet fetches something");
    check(strstr(text, "@page") != NULL && strstr(text, "@media print") != NULL
              && strstr(text, "prefers-color-scheme:dark") != NULL, "no styles for print and dark");
}

void check_rules(struct node *root)
{
    const char *lang = value_of(root, "lang");

    check(is_element(root, "html") && lang != NULL && strcmp(lang, "en") == 0, "no root with a language");
    for (struct node *node = root; node != NULL; node = next_in(root, node)) {
        if (node->name == NULL)
            continue;
        check(is_among(node->name, allowed, sizeof allowed / sizeof allowed[0]), "the element <%s>", node->name);
        check_nesting(node);
        for (size_t at = 0; at < node->attributes; at++)
            check_attribute(root, node, &node->attribute[at]);
        if (is_element(node, "th"))
            check(value_of(node, "scope") != NULL, "a heading of a table without scope");
        if (is_element(node, "svg"))
            check_picture(node);
    }
    check_ids(root);
    check_headings(root);
    check_style(root);
}
