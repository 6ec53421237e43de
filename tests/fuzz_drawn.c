/* Inputs, drawn by changing good ones. */
#include "fuzz.h"

#include <string.h>

enum { WORD_ROOM = 64, DIGITS_MOST = 4, PART_MOST = 400 };

/* ---- Words ---- */

static size_t count_words(const char *words)
{
    size_t count = 1;

    while ((words = strchr(words, ' ')) != NULL) {
        words++;
        count++;
    }
    return count;
}

const char *draw_word(const char *words)
{
    static char word[WORD_ROOM];
    size_t length;

    for (uint32_t skip = any((uint32_t)count_words(words)); skip > 0; skip--)
        words = strchr(words, ' ') + 1;
    length = strcspn(words, " ");
    memcpy(word, words, length);
    word[length] = '\0';
    return word;
}

/* ---- Changes ---- */

/* Puts so many bytes in the place of others; what the input has no room for is left out. */
static void put(struct input *input, size_t at, size_t gone, const void *bytes, size_t length)
{
    if (input->length - gone + length > INPUT_MOST)
        return;
    memmove(input->at + at + length, input->at + at + gone, input->length - at - gone);
    memcpy(input->at + at, bytes, length);
    input->length = input->length - gone + length;
}

static size_t place_in(const struct input *input)
{
    return any((uint32_t)input->length + 1);
}

static size_t length_at(const struct input *input, size_t at, uint32_t most)
{
    size_t rest = input->length - at;

    return any((rest < most ? (uint32_t)rest : most) + 1);
}

static void double_part(struct input *input, size_t at)
{
    uint8_t part[PART_MOST];
    size_t length = length_at(input, at, PART_MOST);

    memcpy(part, input->at + at, length);
    put(input, place_in(input), 0, part, length);
}

static void change(struct input *input, const char *words)
{
    static const uint8_t odd[] = {0x00, 0x01, 0x08, 0x0A, 0x0D, 0x1B, 0x20, 0x7F, 0x80, 0xC3, 0xEF, 0xFF};
    size_t at = place_in(input);
    uint8_t byte = (uint8_t)(any(2) ? ' ' + any(95) : any(2) ? odd[any(sizeof odd)] : any(256));
    const char *word;

    switch (any(words != NULL ? 9 : 6)) {
    case 0: /* a byte in the place of another */
        put(input, at, at < input->length, &byte, 1);
        break;
    case 1: /* a byte more */
        put(input, at, 0, &byte, 1);
        break;
    case 2: /* some bytes less */
        put(input, at, length_at(input, at, any(8) ? 4 : PART_MOST), "", 0);
        break;
    case 3: /* a bit turned over */
        if (at < input->length)
            input->at[at] ^= (uint8_t)(1u << any(8));
        break;
    case 4: /* a part twice */
        double_part(input, at);
        break;
    case 5: /* cut off */
        if (any(4) == 0)
            input->length = at;
        break;
    default: /* a word, often between blanks */
        word = draw_word(words);
        put(input, at, 0, " ", any(2));
        put(input, at, length_at(input, at, 4), word, strlen(word));
        break;
    }
}

void shorten_numbers(struct input *input)
{
    size_t digits = 0, to = 0;

    for (size_t at = 0; at < input->length; at++) {
        bool digit = input->at[at] >= '0' && input->at[at] <= '9';

        digits = digit ? digits + 1 : 0;
        if (digits <= DIGITS_MOST)
            input->at[to++] = input->at[at];
    }
    input->length = to;
    input->at[to] = 0;
}

/* ---- Inputs ---- */

static void draw_from_nothing(struct input *input, const char *words)
{
    input->length = 0;
    for (uint32_t left = any(40); left > 0; left--) {
        const char *word = draw_word(words);
        uint8_t byte = (uint8_t)any(256);

        if (any(4) == 0)
            put(input, input->length, 0, &byte, 1);
        else
            put(input, input->length, 0, word, strlen(word));
        if (any(3) > 0)
            put(input, input->length, 0, any(4) ? " " : "\n", 1);
    }
}

/* Some lines of the good one. */
static void take_part(struct input *input, const struct sample *sample)
{
    size_t from = any((uint32_t)sample->length + 1), length = any(PART_MOST);

    if (any(16) == 0 && sample->length <= INPUT_MOST) {
        from = 0;
        length = sample->length;
    }
    while (from > 0 && sample->good[from - 1] != '\n')
        from--;
    if (length > sample->length - from)
        length = sample->length - from;
    while (from + length < sample->length && length < INPUT_MOST && sample->good[from + length] != '\n')
        length++;
    memcpy(input->at, sample->good + from, length);
    input->length = length;
}

void draw_text(struct input *input, const struct sample *sample)
{
    if (any(8) == 0)
        draw_from_nothing(input, sample->words);
    else
        take_part(input, sample);
    for (uint32_t changes = any(4) ? any(3) : any(30); changes > 0; changes--)
        change(input, sample->words);
    input->at[input->length] = 0;
    if (any(5000) > 0)
        shorten_numbers(input);
}

void draw_bytes(struct input *input, const struct sample *sample)
{
    memcpy(input->at, sample->good, sample->length);
    input->length = sample->length;
    for (uint32_t changes = any(4) ? any(4) : any(60); changes > 0; changes--)
        if (any(4) > 0 && input->length > 0)
            input->at[any((uint32_t)input->length)] = (uint8_t)(any(2) ? any(16) : any(256));
        else
            change(input, NULL);
    input->at[input->length] = 0;
}
