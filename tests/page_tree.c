/* Looking things up in a page's tree. */
#include "page_tree.h"

#include <string.h>

struct node *next_in(const struct node *root, const struct node *node)
{
    if (node->first != NULL)
        return node->first;
    while (node != root && node->next == NULL)
        node = node->parent;
    return node == root ? NULL : node->next;
}

const char *value_of(const struct node *node, const char *attribute)
{
    for (size_t at = 0; at < node->attributes; at++)
        if (strcmp(node->attribute[at].name, attribute) == 0)
            return node->attribute[at].value;
    return NULL;
}

struct node *with_id(struct node *root, const char *id)
{
    for (struct node *node = root; node != NULL; node = next_in(root, node)) {
        const char *value = value_of(node, "id");

        if (value != NULL && strcmp(value, id) == 0)
            return node;
    }
    return NULL;
}

bool is_element(const struct node *node, const char *name)
{
    return node->name != NULL && strcmp(node->name, name) == 0;
}

bool has_class(const struct node *node, const char *class_name)
{
    const char *at = value_of(node, "class");
    size_t length = strlen(class_name);

    while (at != NULL && *at != '\0') {
        size_t word = strcspn(at, " ");

        if (word == length && memcmp(at, class_name, length) == 0)
            return true;
        at += word + strspn(at + word, " ");
    }
    return false;
}

struct node *find_next(struct node *root, const struct node *after, const char *name, const char *class_name)
{
    for (struct node *node = next_in(root, after); node != NULL; node = next_in(root, node))
        if (node->name != NULL && (name == NULL || is_element(node, name))
            && (class_name == NULL || has_class(node, class_name)))
            return node;
    return NULL;
}

struct node *find(struct node *root, const char *name, const char *class_name)
{
    return find_next(root, root, name, class_name);
}

/* Whether a text is a tooltip's or a description's, which the page does not show, in a tree that is not that itself. */
static bool is_aside(const struct node *root, const struct node *text)
{
    return text->parent != root && (is_element(text->parent, "title") || is_element(text->parent, "desc"));
}

const char *text_of(const struct node *node)
{
    size_t length = 0;
    char *text;

    for (const struct node *at = node; at != NULL; at = next_in(node, at))
        length += at->text != NULL && !is_aside(node, at) ? strlen(at->text) : 0;
    text = keep_memory(length + 1);
    for (const struct node *at = node; at != NULL; at = next_in(node, at))
        if (at->text != NULL && !is_aside(node, at))
            strcat(text, at->text);
    return text;
}
