/* Books, states and scripts drawn at random. */
#include "followed.h"

#include <stdio.h>
#include <stdlib.h>
#include <string.h>

enum { PATH_ROOM = 4096, NOP = 0xFFFF, UNLISTED = 0xF800, UNLISTED_ONE_IN = 100, BOOK_MOST = 8933 };

static const char *named(const char *name, const char *ending)
{
    static char path[PATH_ROOM];

    snprintf(path, sizeof path, "%s.%s", name, ending);
    return path;
}

/* For one seed in three a program with many words that are no instructions, so that a trace ends before one; for the
   others one that has none. */
static void draw_program(uint8_t program[PROGRAM_BYTES], uint64_t seed)
{
    random_program(program, (enum mix)(seed / 3 % MIXES));
    for (unsigned address = 0; address < WORDS; address++) {
        uint8_t *word = program + 2 * address;

        if (seed % 3 == 0 && any(UNLISTED_ONE_IN) == 0)
            set_two(word, UNLISTED);
        if (seed % 3 != 0 && is_unlisted((uint16_t)two(word)))
            set_two(word, NOP);
    }
}

static void draw_book(const char *path, uint64_t seed, const char *from)
{
    static uint8_t program[PROGRAM_BYTES], book[BOOK_MOST];
    struct text like = read_whole(from);
    const uint8_t *bytes = (const uint8_t *)like.at;
    uint64_t body, body_len, wiring, wiring_len, level, level_len, value, count = 0;

    draw_program(program, seed);
    if (second_book_read(bytes, like.length, &body, &body_len, &wiring, &wiring_len, &level, &level_len, &value) != 0
        || second_book_write(program, sizeof program, bytes + wiring, wiring_len, bytes + level, level_len, book,
                             sizeof book, &count, &value) != 0) {
        fprintf(stderr, "%s is no good book\n", from);
        exit(2);
    }
    write_whole(path, book, count);
    free(like.at);
}

void draw(uint64_t seed, size_t events, const char *name, const char *book)
{
    uint8_t *script = calloc(events + 1, 1);
    struct machine machine;
    uint8_t state[sizeof machine.memory + sizeof machine.record];

    seed_random(seed);
    draw_book(named(name, "book"), seed, book);
    random_machine(&machine);
    memcpy(state, machine.memory, sizeof machine.memory);
    memcpy(state + sizeof machine.memory, machine.record, sizeof machine.record);
    write_whole(named(name, "state"), state, sizeof state);
    random_script(script, events, (enum mix)(seed / 3 % MIXES));
    write_whole(named(name, "script"), script, events);
    free(script);
}
