/* The example as a load. */
#include "loads.h"

#include "../desk/galhoveia.h"
#include "../desk/texts.h"

#include <stdlib.h>
#include <string.h>

static const char example_book[] = "examples/dispatcher.book", example_script[] = "examples/dispatcher.script";

enum { EXAMPLE_FILE_MOST = 1 << 16 };

static void read_example_program(uint8_t *program)
{
    struct bytes book = read_file(example_book, EXAMPLE_FILE_MOST);
    uint64_t at, length, wiring, wiring_length, level, level_length, value;

    if (galhoveia_book_read(book.at, book.length, &at, &length, &wiring, &wiring_length, &level, &level_length, &value))
        fail("%s is no good book (desk book check tells why)", example_book);
    memcpy(program, book.at + at, GALHOVEIA_PROGRAM_BYTES);
    give_back(book.at);
}

static void read_example_script(uint8_t *script, size_t events)
{
    struct bytes text = read_file(example_script, EXAMPLE_FILE_MOST);
    struct bytes once = script_from_text(example_script, (const char *)text.at);
    size_t silent = 0;

    for (size_t at = 0; at < once.length; at++)
        if (once.at[at] != GALHOVEIA_EVENT_SOUND)
            once.at[silent++] = once.at[at];
    if (silent == 0)
        fail("%s has no events", example_script);
    for (size_t at = 0; at < events; at++)
        script[at] = once.at[at % silent];
    give_back(once.at);
    give_back(text.at);
}

void example_dispatcher(uint8_t *program, uint8_t *script, size_t events)
{
    read_example_program(program);
    read_example_script(script, events);
}
