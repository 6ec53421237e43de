/* Lines of which the items are damaged, so that each item looks right by itself. */
#include "compare_listings.h"

#include <string.h>

enum { MNEMONIC = 2, ITEMS_MOST = 5, KEPT_IN_FRONT = 8 /* the digits of address and word, with the blank between */ };

struct items {
    int count;
    struct item {
        const uint8_t *at;
        size_t length;
    } item[ITEMS_MOST + 1];
};

static struct items items_of(const struct line *line)
{
    struct items items = {0, {{line->bytes, 0}}};

    for (size_t at = 0; at < line->length; at++)
        if (line->bytes[at] == ' ' || line->bytes[at] == '\n')
            items.item[++items.count].at = line->bytes + at + 1;
        else
            items.item[items.count].length++;
    return items;
}

static struct line joined(const struct items *items)
{
    struct line line = {0};

    for (int at = 0; at < items->count; at++) {
        memcpy(line.bytes + line.length, items->item[at].at, items->item[at].length);
        line.length += items->item[at].length;
        line.bytes[line.length++] = at + 1 < items->count ? ' ' : '\n';
    }
    return line;
}

/* Often one that differs in a bit, or an unlisted one. */
static uint16_t other_word_than(uint16_t word)
{
    uint16_t other = any_word_of(any(4) ? (int)any(FORMS) : DATA_FORM);

    return any(2) && other != word ? other : (uint16_t)(word ^ 1u << any(16));
}

static struct line with_items_moved(enum item_damage damage, const struct line *line)
{
    struct items items = items_of(line);
    int at = (int)any((uint32_t)items.count - 1);
    struct item *item = &items.item[at];

    if (damage == ITEMS_SWAPPED) {
        struct item keeps = item[0];

        item[0] = item[1];
        item[1] = keeps;
    } else if (damage == ITEM_LOST) {
        at += (int)any(2);
        memmove(&items.item[at], &items.item[at + 1], sizeof *item * (size_t)(items.count - at - 1));
        items.count--;
    } else {
        memmove(&item[1], &item[0], sizeof *item * (size_t)(items.count - at));
        items.count++;
    }
    return joined(&items);
}

struct line damaged_line(enum item_damage damage, unsigned address, uint16_t word)
{
    struct line line, other;
    struct items items, other_items;

    line.length = put_line(line.bytes, address, word);
    other.length = put_line(other.bytes, address, other_word_than(word));
    switch (damage) {
    case OTHER_LINE:
        return other;
    case OTHER_MEANING:
        memcpy(other.bytes, line.bytes, KEPT_IN_FRONT);
        return other;
    case OTHER_MNEMONIC:
        items = items_of(&line);
        other_items = items_of(&other);
        items.item[MNEMONIC] = other_items.item[MNEMONIC];
        return joined(&items);
    default:
        return with_items_moved(damage, &line);
    }
}
