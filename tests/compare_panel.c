/* Levels, pictures and books, good and damaged. */
#include "compare.h"
#include "support.h"

#include <stdio.h>
#include <string.h>

enum { CONTENTS = 16, LEVEL_BYTES = 5, BOOK_MOST = CONTENTS + PROGRAM_BYTES + WIRING_MOST + LEVEL_BYTES };

static uint8_t program[PROGRAM_BYTES];
static uint8_t long_area[2 * PROGRAM_BYTES];

static unsigned any_askable(void)
{
    unsigned cell;

    do
        cell = any(0x370);
    while (!is_askable(cell));
    return cell;
}

static bool is_good_wiring(const uint8_t *body, size_t length)
{
    for (size_t at = 0; at < length; at += 3)
        if (!is_display(two(body + at)) || body[at + 2] > 3)
            return false;
    return true;
}

static void random_level(uint8_t body[LEVEL_BYTES])
{
    do {
        set_two(body, any_askable());
        set_two(body + 2, any_askable());
    } while (two(body) == two(body + 2));
    body[4] = (uint8_t)any(64);
}

static bool is_good_level(const uint8_t body[LEVEL_BYTES])
{
    return is_askable(two(body)) && is_askable(two(body + 2)) && two(body) != two(body + 2) && body[4] < 64;
}

/* ---- Levels ---- */

static void level_of_body(const struct machine *machine, struct lent body)
{
    uint32_t answer = pair_level(LENT(machine->memory), body);

    if (body.length != LEVEL_BYTES) {
        expect("level, body length", answer, 10, 0);
    } else if (!is_good_level(body.bytes)) {
        expect("level, body", answer, 11, 3);
    } else {
        unsigned high = machine->memory[two(body.bytes)], low = machine->memory[two(body.bytes + 2)];

        if (high > 7 || low > 7) {
            expect("level, digit", answer, 9, high > 7 ? 0 : 1);
        } else {
            expect("level", answer, 0, 0);
            check(after.level == (int)(8 * high + low) - body.bytes[4], "digits %u,%u with ground %u: level %d", high,
                  low, body.bytes[4], after.level);
        }
    }
}

static void levels(void)
{
    static const uint16_t memory_lengths[] = {0, 1, 1023, 1025, 2048};
    struct machine machine;
    uint8_t body[LEVEL_BYTES];

    random_machine(&machine);
    for (unsigned digits = 0; digits < 256; digits++)
        for (unsigned ground = 0; ground < 256; ground += ground < 70 ? 1 : 31) {
            random_level(body);
            machine.memory[two(body)] = digits >> 4;
            machine.memory[two(body + 2)] = digits & 15;
            body[4] = (uint8_t)ground;
            level_of_body(&machine, LENT(body));
        }
    for (unsigned cell = 0; cell < 0x10000; cell += cell < 0x480 ? 1 : 1 + any(300))
        for (int place = 0; place <= 2; place += 2) {
            random_level(body);
            set_two(body + place, cell);
            level_of_body(&machine, LENT(body));
        }
    for (int repeat = 0; repeat < 2000; repeat++) {
        random_level(body);
        if (any(3) == 0)
            set_two(body, two(body + 2));
        if (any(3) == 0)
            body[any(LEVEL_BYTES)] = (uint8_t)any(256);
        random_machine(&machine);
        level_of_body(&machine, any(4) ? LENT(body) : (struct lent){long_area, any(12)});
    }
    for (unsigned set = 0; set < 32; set++)
        for (int repeat = 0; repeat < 10; repeat++) {
            struct lent memory = LENT(machine.memory), lent_body = LENT(body);
            uint32_t answer;

            random_machine(&machine);
            random_level(body);
            machine.memory[two(body)] = set & 16 ? 8 : 7;
            machine.memory[two(body + 2)] = set & 16 ? 15 : 0;
            if (set & 2)
                machine.memory[0x2AA] = 3;
            if (set & 8)
                body[4] = (uint8_t)(64 + any(192));
            if (set & 1)
                memory = (struct lent){long_area, memory_lengths[any(5)]};
            if (set & 4)
                lent_body = (struct lent){long_area, any(2) ? any(5) : 6 + any(40)};
            answer = pair_level(memory, lent_body);
            if (set & 1)
                expect("level, several reasons", answer, 2, memory.length);
            else if (set & 2)
                expect("level, several reasons", answer, 3, 0x2AA);
            else if (set & 4)
                expect("level, several reasons", answer, 10, 0);
            else if (set & 8)
                expect("level, several reasons", answer, 11, 3);
            else if (set & 16)
                expect("level, several reasons", answer, 9, 0);
            else
                expect("level", answer, 0, 0);
        }
    progress("levels: all digits and grounds, all cells, damaged bodies; failed so far %lu", failed);
}

/* ---- Pictures ---- */

static void picture_of(const struct machine *machine, struct lent body, size_t room)
{
    uint8_t before[ELEMENTS_MOST + 16];
    uint32_t answer;
    size_t elements = body.length / 3;
    unsigned wrong = 0;
    bool lit = (machine->memory[0x007] & 4) && machine->record[R_MODE] != IN_STOP;

    memset(before, 0xEE, sizeof before);
    answer = pair_picture(LENT(machine->memory), LENT(machine->record), body, (struct lent){before, room});
    if (body.length % 3 != 0 || elements < 1 || elements > ELEMENTS_MOST) {
        expect("picture, body length", answer, 10, 0);
    } else if (!is_good_wiring(body.bytes, body.length)) {
        expect("picture, body", answer, 11, 2);
    } else if (room < elements) {
        expect("picture, room", answer, 7, elements);
    } else {
        expect("picture", answer, 0, 0);
        check(after.count == elements, "a picture of %zu elements tells %llu", elements,
              (unsigned long long)after.count);
        for (size_t element = 0; element < room; element++) {
            const uint8_t *wire = body.bytes + 3 * element;
            unsigned wanted = 0xEE;

            if (element < elements)
                wanted = lit ? machine->memory[two(wire)] >> wire[2] & 1u : 0;
            wrong += after.output[element] != wanted;
        }
        check(wrong == 0, "a picture of %zu elements has %u wrong", elements, wrong);
    }
}

static void pictures(void)
{
    static const uint16_t memory_lengths[] = {0, 1, 1023, 1025, 2048};
    static const uint16_t record_lengths[] = {0, 1, 36, 37, 38, 42, 43, 44, 46, 90};
    static uint8_t body[WIRING_MOST], output[ELEMENTS_MOST];
    struct machine machine;

    for (int repeat = 0; repeat < 3000; repeat++) {
        unsigned elements = any(4) ? 1 + any(20) : 1 + any(ELEMENTS_MOST);

        random_machine(&machine);
        random_wiring(body, elements);
        if (any(4) == 0)
            body[any(3 * elements)] = (uint8_t)any(256);
        picture_of(&machine, (struct lent){body, 3 * elements}, any(4) ? elements + any(16) : any(elements + 1));
    }
    for (size_t length = 0; length < 740; length++) {
        memset(long_area, 0, 760);
        for (size_t at = 0; at < 760; at += 3)
            long_area[at] = 3;
        picture_of(&machine, (struct lent){long_area, length}, ELEMENTS_MOST);
    }
    random_machine(&machine);
    random_wiring(body, 4);
    for (unsigned at = 0; at < 12; at++)
        for (unsigned byte = 0; byte < 256; byte++) {
            uint8_t keeps = body[at];

            body[at] = (uint8_t)byte;
            picture_of(&machine, (struct lent){body, 12}, 4);
            body[at] = keeps;
        }
    for (unsigned set = 0; set < 128; set++)
        for (int repeat = 0; repeat < 6; repeat++) {
            struct lent memory = LENT(machine.memory), record = LENT(machine.record), wiring = {body, 30};
            uint32_t answer;

            random_machine(&machine);
            random_wiring(body, ELEMENTS_MOST);
            if (set & 2)
                machine.memory[0x1F] = 1;
            if (set & 8)
                machine.record[R_CY] = 2;
            if (set & 32)
                body[any(10) * 3 + 2] = 4;
            if (set & 1)
                memory = (struct lent){long_area, memory_lengths[any(5)]};
            if (set & 4)
                record = (struct lent){long_area, record_lengths[any(sizeof record_lengths / sizeof record_lengths[0])]};
            if (set & 16)
                wiring.length = any(2) ? 29 : 31;
            answer = pair_picture(memory, record, wiring, (struct lent){output, set & 64 ? any(10) : 10});
            if (set & 1)
                expect("picture, several reasons", answer, 2, memory.length);
            else if (set & 2)
                expect("picture, several reasons", answer, 3, 0x1F);
            else if (set & (4 | 8))
                expect("picture, several reasons", answer, 4, 0);
            else if (set & 16)
                expect("picture, several reasons", answer, 10, 0);
            else if (set & 32)
                expect("picture, several reasons", answer, 11, 2);
            else if (set & 64)
                expect("picture, several reasons", answer, 7, 10);
            else
                expect("picture", answer, 0, 0);
        }
    progress("pictures: random, every length, every byte of a wiring, all orders; failed so far %lu", failed);
}

/* ---- Books ---- */

static uint8_t book[BOOK_MOST + 64];

/* Writes a random book with so many elements by galhoveia, leaves it in book[] and answers its length. */
static size_t random_book(unsigned elements)
{
    static uint8_t wiring[WIRING_MOST], output[BOOK_MOST + 64];
    const size_t length = CONTENTS + PROGRAM_BYTES + 3 * elements + LEVEL_BYTES;
    uint8_t level[LEVEL_BYTES], contents[CONTENTS];

    random_program(program, MIX_ANY);
    random_wiring(wiring, elements);
    random_level(level);
    memset(output, 0xEE, sizeof output);
    expect("book_write", pair_book_write(LENT(program), (struct lent){wiring, 3 * elements}, LENT(level), LENT(output)),
           0, 0);
    check(after.count == length, "a book of %u elements has %llu bytes", elements, (unsigned long long)after.count);
    memcpy(book, after.output, sizeof output);
    contents[0] = 3;
    for (unsigned kind = 1; kind <= 3; kind++) {
        uint8_t *entry = contents + 1 + 5 * (kind - 1);

        entry[0] = (uint8_t)kind;
        set_two(entry + 1, kind == 1 ? CONTENTS : kind == 2 ? CONTENTS + PROGRAM_BYTES : (unsigned)length - LEVEL_BYTES);
        set_two(entry + 3, kind == 1 ? PROGRAM_BYTES : kind == 2 ? 3 * elements : LEVEL_BYTES);
    }
    check(memcmp(book, contents, CONTENTS) == 0 && memcmp(book + CONTENTS, program, PROGRAM_BYTES) == 0
          && memcmp(book + CONTENTS + PROGRAM_BYTES, wiring, 3 * elements) == 0
          && memcmp(book + length - LEVEL_BYTES, level, LEVEL_BYTES) == 0
          && memcmp(book + length, output + length, sizeof output - length) == 0,
          "a book of %u elements is not its contents and bodies", elements);
    return length;
}

static void read_back(size_t length, unsigned elements)
{
    const uint64_t wiring_at = CONTENTS + PROGRAM_BYTES, level_at = wiring_at + 3 * elements;
    const uint64_t wanted[6] = {CONTENTS, PROGRAM_BYTES, wiring_at, 3 * elements, level_at, LEVEL_BYTES};

    expect("book_read", pair_book_read((struct lent){book, length}), 0, 0);
    check(memcmp(after.part, wanted, sizeof wanted) == 0, "a book of %u elements: its bodies are elsewhere", elements);
}

static void damaged_books(void)
{
    size_t length = random_book(5);
    unsigned long damaged = 0;

    for (unsigned at = 0; at < CONTENTS; at++)
        for (unsigned byte = 0; byte < 256; byte++) {
            uint8_t keeps = book[at];

            if (byte == keeps)
                continue;
            book[at] = (uint8_t)byte;
            expect("a contents byte", pair_book_read((struct lent){book, length}), 10, 0);
            book[at] = keeps;
            damaged++;
        }
    for (size_t at = CONTENTS + PROGRAM_BYTES; at < length; at++)
        for (unsigned byte = 0; byte < 256; byte++) {
            uint8_t keeps = book[at];
            bool good_wiring, good_level;

            book[at] = (uint8_t)byte;
            good_wiring = is_good_wiring(book + CONTENTS + PROGRAM_BYTES, 15);
            good_level = is_good_level(book + length - LEVEL_BYTES);
            expect("a body byte", pair_book_read((struct lent){book, length}), good_wiring && good_level ? 0 : 11,
                   !good_wiring ? 2 : !good_level ? 3 : 0);
            book[at] = keeps;
            damaged++;
        }
    for (size_t other = 0; other <= sizeof book; other++)
        expect("a book's length", pair_book_read((struct lent){book, other}), other == length ? 0 : 10, 0);
    for (unsigned set = 0; set < 8; set++) {
        length = random_book(7);
        if (set & 1)
            book[any(CONTENTS)] ^= (uint8_t)(1u << any(8));
        if (set & 2)
            book[CONTENTS + PROGRAM_BYTES + 3 * any(7) + 2] = 9;
        if (set & 4)
            book[length - 1] = 64;
        expect("book, several reasons", pair_book_read((struct lent){book, length}),
               set & 1 ? 10 : set & 6 ? 11 : 0, set & 1 ? 0 : set & 2 ? 2 : set & 4 ? 3 : 0);
    }
    progress("books: %lu damaged bytes, every length; failed so far %lu", damaged, failed);
}

static void book_lengths(void)
{
    static uint8_t wiring[WIRING_MOST + 9], output[BOOK_MOST + 64];
    uint8_t level[LEVEL_BYTES];

    for (unsigned elements = 1; elements <= ELEMENTS_MOST; elements++)
        read_back(random_book(elements), elements);
    random_wiring(wiring, ELEMENTS_MOST + 3);
    random_level(level);
    for (size_t length = 0; length <= sizeof wiring; length++)
        (void)pair_book_write(LENT(program), (struct lent){wiring, length}, LENT(level), LENT(output));
    for (unsigned set = 0; set < 64; set++)
        for (int repeat = 0; repeat < 6; repeat++) {
            struct lent lent_program = LENT(program), lent_wiring = {wiring, 30}, lent_level = LENT(level);
            const size_t needed = CONTENTS + PROGRAM_BYTES + 30 + LEVEL_BYTES;
            uint32_t answer;

            random_wiring(wiring, 10);
            random_level(level);
            if (set & 8)
                set_two(wiring + 3 * any(10), 0x349 + any(8));
            if (set & 16)
                set_two(level, two(level + 2));
            if (set & 1)
                lent_program.length = any(2) ? PROGRAM_BYTES - 1 : any(PROGRAM_BYTES);
            if (set & 2)
                lent_wiring.length = any(3) ? 29 + 2 * any(2) : 0;
            if (set & 4)
                lent_level = (struct lent){long_area, any(2) ? 6 : any(5)};
            answer = pair_book_write(lent_program, lent_wiring, lent_level,
                                     (struct lent){output, set & 32 ? any((uint32_t)needed) : needed});
            if (set & 7)
                expect("book_write, several reasons", answer, 10, 0);
            else if (set & 8)
                expect("book_write, several reasons", answer, 11, 2);
            else if (set & 16)
                expect("book_write, several reasons", answer, 11, 3);
            else if (set & 32)
                expect("book_write, several reasons", answer, 7, needed);
            else
                expect("book_write", answer, 0, 0);
        }
    random_book(3);
    expect("a longer program", pair_book_write((struct lent){long_area, PROGRAM_BYTES + 2}, (struct lent){wiring, 3},
                                               LENT(level), LENT(output)), 10, 0);
    progress("books: written and read at every size, all orders of the writer; failed so far %lu", failed);
}

void compare_panel(void)
{
    for (size_t at = 0; at < sizeof long_area; at++)
        long_area[at] = (uint8_t)any(256);
    random_program(program, MIX_ANY);
    levels();
    pictures();
    damaged_books();
    book_lengths();
}
