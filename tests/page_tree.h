/* A page of the desk's report, read strictly: as XML of the narrow kind that the desk writes, and as what a browser
   makes of it, so that both see the same tree. Nothing here is shared with what writes it. */
#ifndef TESTS_PAGE_TREE_H
#define TESTS_PAGE_TREE_H

#include <stdbool.h>
#include <stddef.h>

enum { ATTRIBUTES_MOST = 12 };

struct attribute {
    const char *name, *value; /* the value as it is meant, with nothing left escaped */
};

/* An element, or a text, which has no name. */
struct node {
    const char *name, *text;
    struct attribute attribute[ATTRIBUTES_MOST];
    size_t attributes;
    struct node *parent, *first, *last, *next;
};

/* The page's root; NULL where it is not well formed, and then *why and the line tell of the first thing that is wrong.
   */
struct node *read_page(const char *text, size_t length, const char **why, unsigned long *line);

/* The next node of a tree in the order of the page; NULL behind its last. */
struct node *next_in(const struct node *root, const struct node *node);

/* NULL where there is none. */
const char *value_of(const struct node *node, const char *attribute);
struct node *with_id(struct node *root, const char *id);

bool is_element(const struct node *node, const char *name);
bool has_class(const struct node *node, const char *class_name);

/* The first, then the next, element of a tree with this name and class; each may be NULL for any. */
struct node *find(struct node *root, const char *name, const char *class_name);
struct node *find_next(struct node *root, const struct node *after, const char *name, const char *class_name);

/* All text in a tree, line ends included, but not that of titles and descriptions within it. */
const char *text_of(const struct node *node);

/* Memory that is kept to the end of the program. */
void *keep_memory(size_t bytes);

#endif
