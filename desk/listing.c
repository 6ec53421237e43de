/* A program's listing, as the library writes it. */
#include "listing.h"

#include "files.h"

#include <string.h>

_Noreturn void bad_listing(const char *what)
{
    end_in_fault("the library's listing: %s", what);
}

size_t write_listing(const uint8_t *program, uint8_t text[GALHOVEIA_LISTING_BYTES_MOST])
{
    uint64_t count = 0, value = 0;
    uint32_t refusal = galhoveia_listing_write(program, GALHOVEIA_PROGRAM_BYTES, text, GALHOVEIA_LISTING_BYTES_MOST,
                                               &count, &value);

    if (refusal != GALHOVEIA_DONE) {
        say_refusal("the listing", refusal, value);
        bad_listing("a program was refused");
    }
    return (size_t)count;
}

void list_lines(const uint8_t *program, struct lines *lines)
{
    uint8_t text[GALHOVEIA_LISTING_BYTES_MOST];
    const uint8_t *at = text, *end = text + write_listing(program, text);

    memset(lines, 0, sizeof *lines);
    for (unsigned address = 0; address < GALHOVEIA_WORDS; address++) {
        const uint8_t *feed = memchr(at, '\n', (size_t)(end - at));

        if (feed == NULL || feed - at <= LINE_MNEMONIC || feed - at >= GALHOVEIA_LINE_BYTES_MOST)
            bad_listing("a line is missing, too short or too long");
        memcpy(lines->at[address], at, (size_t)(feed - at));
        at = feed + 1;
    }
    if (at != end)
        bad_listing("more than 4,096 lines");
}

void list_words(unsigned first, struct lines *lines)
{
    uint8_t program[GALHOVEIA_PROGRAM_BYTES];

    for (unsigned address = 0; address < GALHOVEIA_WORDS; address++) {
        program[2 * address] = (uint8_t)((first + address) >> 8);
        program[2 * address + 1] = (uint8_t)(first + address);
    }
    list_lines(program, lines);
}

bool is_data(const char *line)
{
    return strcmp(line + LINE_MNEMONIC, "DATA") == 0;
}

const char *first_operand(const char *line)
{
    const char *name_end = line + LINE_MNEMONIC + strcspn(line + LINE_MNEMONIC, " ");

    return *name_end == ' ' ? name_end + 1 : name_end;
}
