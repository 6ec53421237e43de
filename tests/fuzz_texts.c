/* Bad texts, given to the desk's readers from memory. What a reader takes is held to what it must come to, and given to
   the library. */
#include "../desk/explain.h"
#include "../desk/listing.h"
#include "../desk/panel.h"
#include "../desk/run.h"
#include "../desk/texts.h"
#include "fuzz.h"

#include <stdio.h>
#include <string.h>

#define NUMBERS "0 1 2 3 7 8 9 15 16 63 64 255 256 4095 4096 65535 65536 99999999999999999999 $0 $F $20 $3FF $400 $FFFF " \
                "0x 0x1F $ -1 + "

#define EVENTS NUMBERS "cycle base watchdog reset sound a=1 b=F c=0 d=7 a= =5 $00 $04 $05 $06 $2A $4F $50 $FF * *0 *1 " \
               "*2 *7 *999 ** ( ) )* )*0 )*3 )*9 # ( (((( (((((((((((((((( ) ))))"

static struct bytes script, two_cars, assembly, wiring, level, listing;
static struct book example;
static struct state fresh;
static struct input input;

static struct bytes read_example(const char *folder, const char *name)
{
    char path[4096];

    if (snprintf(path, sizeof path, "%s/%s", folder, name) >= (int)sizeof path)
        finding("the folder's name is too long");
    return read_file(path, FILE_MOST);
}

void prepare_texts(const char *examples)
{
    char book[4096];

    script = read_example(examples, "dispatcher.script");
    two_cars = read_example(examples, "science-block.script");
    assembly = read_example(examples, "dispatcher.asm");
    wiring = read_example(examples, "dispatcher.wiring");
    level = read_example(examples, "dispatcher.level");
    snprintf(book, sizeof book, "%s/dispatcher.book", examples);
    if (!read_book(book, &example) || !make_fresh(&fresh, 0, "a fresh machine"))
        finding("the example book is refused");
    listing.at = take_memory(GALHOVEIA_LISTING_BYTES_MOST, 1);
    listing.length = write_listing(example.program.at, listing.at);
}

/* ---- The readers ---- */

/* A reader's text and what it made of it. */
struct reading {
    struct bytes (*from_text)(const char *path, const char *text);
    struct bytes made;
};

static void read_input(void *with)
{
    struct reading *reading = with;

    if (memchr(input.at, 0, input.length) != NULL)
        fail("drawn is no text"); /* as read_text says of a file */
    reading->made = reading->from_text("drawn", (const char *)input.at);
}

/* Draws a text and reads it. Answers whether it was taken; the caller gives back what was made. */
static bool taken(struct outcome *outcome, struct bytes good, const char *words,
                  struct bytes (*from_text)(const char *, const char *), struct bytes *made)
{
    const struct sample sample = {good.at, good.length, words};
    struct reading reading = {from_text, {NULL, 0}};

    draw_text(&input, &sample);
    if (!attempt(read_input, &reading)) {
        outcome->refused++;
        return false;
    }
    outcome->taken++;
    *made = reading.made;
    return true;
}

static uint32_t refusal_of_book(struct bytes program, struct bytes wires, struct bytes levels)
{
    uint8_t book[GALHOVEIA_BOOK_BYTES_MOST];
    uint64_t length = 0, value = 0;

    return galhoveia_book_write(program.at, program.length, wires.at, wires.length, levels.at, levels.length, book,
                                sizeof book, &length, &value);
}

/* A run can be refused for an unknown event and for a word that is no instruction alone. */
static void input_script(struct outcome *outcome)
{
    enum { RUN_MOST = 20000 };
    struct run run = {.book = &example, .start = fresh};
    uint64_t value;
    uint32_t refusal;

    if (!taken(outcome, script, EVENTS, script_from_text, &run.events))
        return;
    if (run.events.length <= RUN_MOST) {
        refusal = do_run(&run, any(2) ? GALHOVEIA_NO_STOP : any(64), &value);
        if (refusal != GALHOVEIA_DONE && refusal != GALHOVEIA_UNKNOWN_EVENT && refusal != GALHOVEIA_UNLISTED_WORD)
            finding("a script's run is refused by %lu", (unsigned long)refusal);
    }
    give_back(run.events.at);
}

static void input_two_cars(struct outcome *outcome)
{
    struct bytes made;

    if (!taken(outcome, two_cars, "0: 1: 2: : 0 1: " EVENTS, two_cars_from_text, &made))
        return;
    if (made.length % 2 != 0)
        finding("a script of two cars has %zu bytes", made.length);
    for (size_t at = 0; at < made.length; at += 2)
        if (made.at[at] > 1)
            finding("a script of two cars has a car %u", made.at[at]);
    give_back(made.at);
}

static void input_assembly(struct outcome *outcome)
{
    struct bytes made;

    if (!taken(outcome, assembly,
               NUMBERS "ORG EQU DW ADC LDI STA JMP CALL BNZ RTNW DAA NOP TJMP , : ; name name: _ $020 , - + + "
                       "a_name_that_has_thirty_letters a_name_that_has_twenty",
               program_from_text, &made))
        return;
    if (refusal_of_book(made, example.wiring, example.level) != GALHOVEIA_DONE)
        finding("an assembled program of %zu bytes makes no book", made.length);
    give_back(made.at);
}

static void input_wiring(struct outcome *outcome)
{
    struct bytes made;
    uint32_t refusal;

    if (!taken(outcome, wiring, NUMBERS "$300.0 $348.3 $349.0 $2FF.1 $300.4 $300. .1 . $300.$1 768.2 #",
               wiring_from_text, &made))
        return;
    refusal = refusal_of_book(example.program, made, example.level);
    if (refusal != GALHOVEIA_DONE && refusal != GALHOVEIA_LENGTH && refusal != GALHOVEIA_BODY)
        finding("a wiring of %zu bytes is refused by %lu", made.length, (unsigned long)refusal);
    give_back(made.at);
}

static void input_level(struct outcome *outcome)
{
    struct bytes made;
    uint32_t refusal;

    if (!taken(outcome, level, NUMBERS "high low ground high low ground $020 $021 2 $16F $300 #", level_from_text,
               &made))
        return;
    refusal = refusal_of_book(example.program, example.wiring, made);
    if (refusal != GALHOVEIA_DONE && refusal != GALHOVEIA_BODY)
        finding("a level body is refused by %lu", (unsigned long)refusal);
    give_back(made.at);
}

/* ---- Listings ---- */

/* What is taken is what the library writes for the program that it comes to; of any other text the first bad line is
   explained. */
static void input_listing(struct outcome *outcome)
{
    static uint8_t program[GALHOVEIA_PROGRAM_BYTES], again[GALHOVEIA_LISTING_BYTES_MOST];
    const struct sample sample = {listing.at, any(64) ? 400 : listing.length,
                                  "DATA NOP ADC 000 001 FFFF 0A0 013 3CA0 STA"};
    uint64_t value = 0;
    uint32_t refusal;

    if (any(256) == 0) {
        memcpy(input.at, listing.at, listing.length);
        input.length = listing.length;
        if (any(2))
            input.at[any((uint32_t)input.length)] = (uint8_t)any(256);
    } else {
        draw_text(&input, &sample);
    }
    refusal = galhoveia_listing_read(input.at, input.length, program, sizeof program, &value);
    if (refusal == GALHOVEIA_LISTING) {
        outcome->refused++;
        describe_refusal(stderr, refusal, value);
        explain_listing((struct bytes){input.at, input.length}, value);
        return;
    }
    if (refusal != GALHOVEIA_DONE)
        finding("a listing is refused by %lu", (unsigned long)refusal);
    if (write_listing(program, again) != input.length || memcmp(again, input.at, input.length) != 0)
        finding("a text that is taken is no listing");
    outcome->taken++;
}

const struct kind_of_input text_kinds[] = {
    {"scripts", 30, input_script, NULL, false},
    {"scripts of two cars", 20, input_two_cars, NULL, false},
    {"assembly", 15, input_assembly, NULL, false},
    {"wirings", 12, input_wiring, NULL, false},
    {"level bodies", 12, input_level, NULL, false},
    {"listings", 8, input_listing, NULL, false},
    {NULL, 0, NULL, NULL, false},
};
