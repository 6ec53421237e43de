/* Galhoveia: a proved emulator of the 4-bit controller SH67P54, for C and C++.

   Once installed (make install), pkg-config tells how to compile and link with it: cc program.c $(pkg-config --cflags
   --libs galhoveia). In the repository the archive is build/libhost.a (x86-64 code), which `make archive`
   builds. The library keeps nothing between calls: the chip's program, its memory and its registers stay with the
   caller and are lent to each call as bytes, the tables of a cross-reference as numbers.

     program   8,192 bytes: 4,096 words of 16 bits, high byte first; word n is at bytes 2n and 2n + 1
     memory    1,024 bytes: one nibble of the chip's RAM in each, at the chip's own addresses $000 to $3FF
     record    45 bytes: the registers that are not in RAM, as listed below
     script    any number of bytes: what happens to the chip, one event in each; to galhoveia_run_two, which runs two
               chips, any number of entries of two bytes each, a car and its event
     book      a file of the records desk: a program, the wiring of a panel, and where the panel keeps its level
     listing   a program as text: one line for each of its 4,096 words, described at galhoveia_listing_write
     tables    5,120 numbers of 16 bits: the cross-reference of a program, described at galhoveia_xref_build

   Every call answers 0 (done) or the number of a refusal, and always writes *value: the number that goes with the
   refusal, or 0. A refusal leaves every lent byte and every other out value as it was, with one exception, told at
   galhoveia_run. No bytes, lengths or numbers are forbidden: what a call cannot work with, it refuses.

   What the caller must keep:
     - A pointer is valid for the length given beside it; an out pointer (uint64_t *value and the like) is valid for
       one number of its type. Out pointers and tables are aligned for their numbers. Not even a length of 0 or a
       refusal makes a null pointer right.
     - Nothing that is lent to one call overlaps: neither two areas, nor an area and an out value, nor two out values.
     - While a call works, no other thread touches what is lent to it. Calls on separate areas may run side by side.
     - There is stack for the call, below its arguments: in the archive (x86-64) no call takes more than
       GALHOVEIA_STACK_BYTES_MOST bytes, whatever is lent to it, besides what the system's memset and memcpy take.
       docs/TESTING.md tells it call by call.

   An example: a fresh chip with the watchdog off takes a hundred cycles, and the level on its panel is read.

     static uint8_t program[GALHOVEIA_PROGRAM_BYTES];
     static const uint8_t level_body[5] = {0x00, 0x20, 0x00, 0x21, 2};
     static const uint8_t script[100] = {GALHOVEIA_EVENT_CYCLE};
     uint8_t memory[GALHOVEIA_MEMORY_BYTES];
     uint8_t record[GALHOVEIA_RECORD_BYTES];
     uint64_t value, events = 0;
     uint32_t refusal, reason = GALHOVEIA_AT_END;
     int32_t level = 0;

     refusal = galhoveia_fresh(memory, sizeof memory, record, sizeof record, 0, &value);
     if (refusal == GALHOVEIA_DONE)
         refusal = galhoveia_run(program, sizeof program, memory, sizeof memory, record, sizeof record,
                                 script, sizeof script, GALHOVEIA_NO_STOP, &reason, &events, &value);
     if (refusal == GALHOVEIA_DONE)
         refusal = galhoveia_level(memory, sizeof memory, level_body, sizeof level_body, &level, &value);
     if (refusal == GALHOVEIA_DONE)
         printf("level %ld after %llu events\n", (long)level, (unsigned long long)events);
     else
         printf("refused by %lu with %llu\n", (unsigned long)refusal, (unsigned long long)value);
*/
#ifndef GALHOVEIA_H
#define GALHOVEIA_H

#include <stddef.h>
#include <stdint.h>

#ifdef __cplusplus
extern "C" {
#endif

#define GALHOVEIA_VERSION        "0.7.0" /* the second number is the last request that the library has */

#define GALHOVEIA_WORDS          4096
#define GALHOVEIA_PROGRAM_BYTES  8192
#define GALHOVEIA_MEMORY_BYTES   1024
#define GALHOVEIA_RECORD_BYTES   45
#define GALHOVEIA_LEVELS         8    /* stack entries */
#define GALHOVEIA_LEVEL_BYTES    5    /* a book's level body */
#define GALHOVEIA_ELEMENT_BYTES  3    /* one element of a book's wiring body */
#define GALHOVEIA_ELEMENTS_MOST  240
#define GALHOVEIA_BOOK_BYTES_MOST 8933 /* 16 of contents, the program, 240 elements, the level body */
#define GALHOVEIA_LINE_BYTES_MOST 21   /* the longest line of a listing, with its line feed */
#define GALHOVEIA_LISTING_BYTES_MOST 86016
#define GALHOVEIA_XREF_NUMBERS   5120 /* the tables of a cross-reference: a number for each cell and each word */
#define GALHOVEIA_XREF_NONE      4096 /* in the tables: no address */
#define GALHOVEIA_XREF_POINTED   0x00F /* the cell under which the tables keep the writers through $00F */
#define GALHOVEIA_STACK_BYTES_MOST 16472

/* The answer of every call. Where several refusals apply, the lowest number is told, but 7 only where nothing else
   applies, and in galhoveia_level 10 and 11 come before 9. */
enum {
    GALHOVEIA_DONE = 0,
    GALHOVEIA_PROGRAM_LENGTH = 1, /* the program is not 8,192 bytes long; value: the length lent, in bytes */
    GALHOVEIA_MEMORY_LENGTH = 2,  /* the memory is not 1,024 bytes long; value: the length lent */
    GALHOVEIA_MEMORY_CELL = 3,    /* a memory byte has a bit that its cell cannot hold; value: the lowest such
                                     address */
    GALHOVEIA_RECORD = 4,         /* the record is not 45 bytes long, or breaks a rule listed below; value: 0 */
    GALHOVEIA_UNKNOWN_EVENT = 5,  /* an event byte means nothing; value: the first such place, counted from 0 */
    GALHOVEIA_UNLISTED_WORD = 6,  /* a cycle would execute a word that is no instruction; value: its program address */
    GALHOVEIA_ROOM = 7,           /* the area for the result is too small; value: the bytes needed, or of tables the
                                     numbers */
    GALHOVEIA_ASKED_CELL = 8,     /* the cell asked about is no data, display or scan cell; value: that cell */
    GALHOVEIA_DIGIT = 9,          /* a digit of the level is above 7; value: 0 the high digit, 1 the low one */
    GALHOVEIA_LENGTH = 10,        /* a book's contents or length, or the length of a body, is wrong; value: 0 */
    GALHOVEIA_BODY = 11,          /* a body holds a value out of its rule; value: the kind, 2 wiring, 3 level */
    GALHOVEIA_OPTIONS = 12,       /* options above 7 asked of a fresh machine; value: the options */
    GALHOVEIA_FIELD = 13,         /* a program address above 4095; value: 0 */
    GALHOVEIA_LISTING = 26,       /* a text is no listing; value: the number of good lines that it begins with, so the
                                     first bad line, counted from 0 */
    GALHOVEIA_CAR = 27,           /* a car above 1 in a script of two cars; value: the first such byte's place */
    GALHOVEIA_CUT_ENTRY = 28,     /* a script of two cars ends behind a car; value: that byte's place */
    GALHOVEIA_TABLES = 29         /* the tables are not the cross-reference of the program lent with them; value: 0 */
};

/* The memory. Cells that exist: $000-$01F registers, $020-$16F data, $300-$348 display, $358-$36D scan, $370-$377
   sound. Every other byte is 0, and so are $004, $005, $006, $00F and $01F, which keep nothing in RAM. No byte is
   above 15; bit 3 of $007, $011 and $012 and bit 2 of $014 are 0. */

/* The record: where each field begins, and its rule. Fields of two bytes have the high byte first. */
enum {
    GALHOVEIA_RECORD_PC = 0,               /* 2 bytes, 0 to 4095: the program counter */
    GALHOVEIA_RECORD_AC = 2,               /* 0 to 15: the accumulator */
    GALHOVEIA_RECORD_CY = 3,               /* 0 or 1: the carry flag */
    GALHOVEIA_RECORD_MODE = 4,             /* 0 running, 1 asleep in HALT, 2 asleep in STOP */
    GALHOVEIA_RECORD_STACK = 5,            /* 8 entries of 2 bytes, newest first; each 4096 x carry + program counter */
    GALHOVEIA_RECORD_TIMER0_PRESCALER = 21, /* 2 bytes, below the ratio that $002 bits 2-0 choose: 2048, 512, 128, 32,
                                              8, 4, 2; 0 where they are 7 (pin counting) */
    GALHOVEIA_RECORD_TIMER0_COUNTER = 23,  /* 0 to 255 */
    GALHOVEIA_RECORD_TIMER0_LOAD = 24,     /* 0 to 255 */
    GALHOVEIA_RECORD_BASE_PRESCALER = 25,  /* below the ratio that $003 bits 1-0 choose: 1, 4, 8, 16 */
    GALHOVEIA_RECORD_BASE_COUNTER = 26,    /* 0 to 255. The base timer is on when $003 bit 3 is 1 and bit 2 is 0; off,
                                              prescaler and counter are 0 */
    GALHOVEIA_RECORD_WATCHDOG = 27,        /* 2 bytes, 1 up to the period that $01E bits 2-0 choose: 4096, 1024, 256,
                                              128, 64, 16, 4, 1 */
    GALHOVEIA_RECORD_PINS = 29,            /* 4 bytes, 0 to 15 each: what stands at the pins of ports A, B, C, D */
    GALHOVEIA_RECORD_OPTIONS = 33,         /* 0 to 7: bit 0 watchdog on, bits 1 and 2 the bonding bits, which bits 0 and
                                              1 of memory cell $00C repeat */
    GALHOVEIA_RECORD_PENDING = 34,         /* 0 or 1: a read of program data is under way */
    GALHOVEIA_RECORD_PENDING_ADDRESS = 35, /* 2 bytes, 0 to 4095: its address; 0 when none is under way */
    GALHOVEIA_RECORD_COUNT_1 = 37,         /* 2 bytes, 0 to 1015: the sound clocks left until channel 1's output turns
                                              over; 0: as many as its registers tell at the next clock */
    GALHOVEIA_RECORD_OUTPUT_1 = 39,        /* 0 or 1: what channel 1 puts out */
    GALHOVEIA_RECORD_COUNT_2 = 40,         /* 2 bytes: the same of channel 2 */
    GALHOVEIA_RECORD_OUTPUT_2 = 42,
    GALHOVEIA_RECORD_FROZEN = 43,          /* 0 to 15: the low nibble of Timer0's counter as it was frozen; 0 when none
                                              is frozen */
    GALHOVEIA_RECORD_FROZEN_MARK = 44      /* 0 or 1: a nibble is frozen */
};

enum { GALHOVEIA_RUNNING = 0, GALHOVEIA_HALT = 1, GALHOVEIA_STOP = 2 };

/* Events. A port's four pins become the low nibble of its byte: $2A sets port B to 1010. Any other byte is unknown. */
enum {
    GALHOVEIA_EVENT_CYCLE = 0x00,    /* one instruction cycle */
    GALHOVEIA_EVENT_BASE = 0x01,     /* one pulse of the base timer's clock */
    GALHOVEIA_EVENT_WATCHDOG = 0x02, /* one millisecond for the watchdog */
    GALHOVEIA_EVENT_RESET = 0x03,    /* the reset pin */
    GALHOVEIA_EVENT_SOUND = 0x05,    /* one clock of the sound generator */
    GALHOVEIA_EVENT_PINS_A = 0x10,
    GALHOVEIA_EVENT_PINS_B = 0x20,
    GALHOVEIA_EVENT_PINS_C = 0x30,
    GALHOVEIA_EVENT_PINS_D = 0x40
};

/* Sound: two channels of square tones. A channel runs while it is enabled ($377 bit 0 or 1), the seven bits of its tone
   are not 0, and, for channel 2, bits 0 and 1 of $370 are 0. On a sound clock of a channel that runs, a count of 0
   becomes N, or 8N with the octave bit; then the count falls by one, and where it is then 0 the output turns over. A
   channel that does not run keeps both, and so does every channel in STOP. The data sheet's table gives N, 1 to 127, by
   the seven bits: those of channel 1 are $372 bits 2-0 and $371, its octave bit is $372 bit 3; those of channel 2 are
   $376 bits 2-0 and $375, its octave bit is $376 bit 3. */

/* Timer0's counter is read in two halves. A read of $005 gives the high nibble and freezes the low one as it stands
   then, also where one is frozen already; the next read of $004 gives the frozen nibble and releases it, so that $005
   and then $004 give the halves of one count. Where none is frozen, $004 reads the counter as it stands. Every
   instruction that reads the cell does so, by its name or through $00F, one that then writes it too. A write to $005
   and both resets also release; nothing else does. */

/* DAA and DAS adjust what the cell reads as, whatever the accumulator holds. DAA adds 6 where that is above 9 or the
   carry is 1, and the carry is then 1; DAS adds 10 where the carry is 0, and leaves the carry. The accumulator and the
   cell both get the result, modulo 16, also where nothing was added. */

/* Why a run stopped. */
enum { GALHOVEIA_AT_ADDRESS = 0, GALHOVEIA_AT_UNLISTED = 1, GALHOVEIA_AT_END = 2 };

#define GALHOVEIA_NO_STOP 4096 /* this stop address and every higher one: none */

/* Makes a chip as it is after power-on: memory and record are written whole, whatever they held. options: bit 0
   watchdog on, bits 1 and 2 the bonding bits. Can answer 2, 4 (the record's length), 12. */
uint32_t galhoveia_fresh(uint8_t *memory, size_t memory_len, uint8_t *record, size_t record_len,
                         uint32_t options, uint64_t *value);

/* Applies one event. Can answer 1 to 6. */
uint32_t galhoveia_step(const uint8_t *program, size_t program_len, uint8_t *memory, size_t memory_len,
                        uint8_t *record, size_t record_len, uint8_t event, uint64_t *value);

/* Applies a script's events in order, and stops at the first of these, the earlier named if two hold: after a cycle
   that leaves the program counter at `stop`; before a cycle that would execute a word that is no instruction; at the
   script's end. *reason tells which (GALHOVEIA_AT_...), *events how many events were done. Can answer 1 to 6. The
   whole script is judged before anything moves (5). The exception among the refusals is 6 here: memory and record
   then hold the state after the events that were done, *reason is GALHOVEIA_AT_UNLISTED and *events is written. */
uint32_t galhoveia_run(const uint8_t *program, size_t program_len, uint8_t *memory, size_t memory_len,
                       uint8_t *record, size_t record_len, const uint8_t *script, size_t script_len,
                       uint32_t stop, uint32_t *reason, uint64_t *events, uint64_t *value);

/* Runs two cars, each with a chip of its own, over one program and one wiring. Each entry of the script is two bytes,
   the car (0 or 1) and the event that happens to its chip. What comes of a car is what its own entries make of it,
   whatever the other does. A car stops as in galhoveia_run: at its own stop address, or before a word that is no
   instruction, which is no refusal here, since the other car goes on; once stopped, it takes no more entries, no reset
   either. The run ends with the entry by which both cars have stopped, or with the script.
   Each car's memory and record are those of the state in which it ends, and its picture is what galhoveia_picture gives
   for that state, after an empty script too: one byte for each element of the wiring, and bytes beyond them stay.
   *reason0 and *reason1 tell why each car stopped (GALHOVEIA_AT_END where its entries are all taken), *entries how many
   entries the run has passed, those of a stopped car and one that met a word that is no instruction among them.
   Can answer, all before anything moves, in this order: 1; 2, 3, 4, at equal numbers car 0's first; 5; 10; 11 (the
   wiring); 27; 28; 7, car 0's first. The whole script is judged, cut into entries from its front, a lone byte at its
   end being a car; places count its bytes from 0, so that of an unknown event (5) is odd. */
uint32_t galhoveia_run_two(const uint8_t *program, size_t program_len, const uint8_t *wiring, size_t wiring_len,
                           uint8_t *memory0, size_t memory0_len, uint8_t *record0, size_t record0_len,
                           uint8_t *picture0, size_t room0,
                           uint8_t *memory1, size_t memory1_len, uint8_t *record1, size_t record1_len,
                           uint8_t *picture1, size_t room1,
                           const uint8_t *script, size_t script_len, uint32_t stop0, uint32_t stop1,
                           uint32_t *reason0, uint32_t *reason1, uint64_t *entries, uint64_t *value);

/* Lists the addresses of all instructions that can change a cell: exactly those for which some state of the chip
   exists in which executing them changes it, those that reach it through the pointer register $00F among them.
   `addresses` gets two bytes for each, high byte first, ascending; *count is the bytes written, and bytes beyond them
   stay. 8,192 bytes are always room enough. Can answer 1, 7, 8. */
uint32_t galhoveia_list(const uint8_t *program, size_t program_len, uint32_t cell,
                        uint8_t *addresses, size_t room, uint64_t *count, uint64_t *value);

/* Builds the cross-reference of a program: for every cell that galhoveia_list can be asked about the addresses of its
   writers, in tables that answer cell after cell and are kept up as words are replaced. An instruction that can change
   the data, display or scan cell that it names is kept under that cell; one that can change a cell through $00F is kept
   once, under GALHOVEIA_XREF_POINTED; any other word under none. The tables are numbers of 16 bits in the processor's
   own order, and their length counts numbers:

     tables[c]         for c 0 to 1023, the lowest address kept under cell c
     tables[1024 + a]  for a 0 to 4095, the next higher address kept under the same cell as address a

   GALHOVEIA_XREF_NONE stands where there is none, so also at every cell that nothing is kept under and at every
   address that is kept under none. Numbers beyond the first GALHOVEIA_XREF_NUMBERS stay. Can answer 1, 7 (with
   GALHOVEIA_XREF_NUMBERS). */
uint32_t galhoveia_xref_build(const uint8_t *program, size_t program_len, uint16_t *tables, size_t tables_len,
                              uint64_t *value);

/* Answers what galhoveia_list answers, from the tables: the cell's own writers joined with those through $00F. The
   tables must be the program's: fewer than GALHOVEIA_XREF_NUMBERS numbers, or one among these that is not as
   galhoveia_xref_build would write it, is 29. Can answer, in this order, 1, 8, 29, 7. */
uint32_t galhoveia_xref_list(const uint8_t *program, size_t program_len, const uint16_t *tables, size_t tables_len,
                             uint32_t cell, uint8_t *addresses, size_t room, uint64_t *count, uint64_t *value);

/* Replaces the program's word at an address by any word, listed or not, and keeps the tables up with it: after it they
   are what galhoveia_xref_build gives for the new program, and numbers beyond them stay. Can answer, in this order,
   1, 13 (an address above 4095), 29 (the tables are not those of the program before); then neither the program nor the
   tables are touched. */
uint32_t galhoveia_xref_replace(uint8_t *program, size_t program_len, uint16_t *tables, size_t tables_len,
                                uint32_t address, uint16_t word, uint64_t *value);

/* Reads the level that the panel stands at: 8 x high digit + low digit - ground, from -63 to 63, basements negative.
   `body` is a book's level body of 5 bytes: the cell of the high digit (2 bytes, high byte first), the cell of the low
   digit (2 bytes), the ground code 0 to 63. The cells are different, each a data, display or scan cell. Can answer
   2, 3, 9, 10, 11. */
uint32_t galhoveia_level(const uint8_t *memory, size_t memory_len, const uint8_t *body, size_t body_len,
                         int32_t *level, uint64_t *value);

/* Tells what the panel shows: one byte for each element of the wiring, 1 lit, 0 dark; all dark while the display is
   off ($007 bit 2) or the chip is in STOP. `body` is a book's wiring body, 1 to 240 elements of 3 bytes: a display
   cell $300-$348 (2 bytes, high byte first) and a bit 0 to 3. *count is the number of bytes written, and bytes beyond
   them stay. Can answer 2, 3, 4, 7, 10, 11. */
uint32_t galhoveia_picture(const uint8_t *memory, size_t memory_len, const uint8_t *record, size_t record_len,
                           const uint8_t *body, size_t body_len, uint8_t *picture, size_t room,
                           uint64_t *count, uint64_t *value);

/* Judges a book and tells where its bodies lie: three offsets into the book and three lengths, each out value for
   itself. Can answer 10, 11. */
uint32_t galhoveia_book_read(const uint8_t *book, size_t book_len, uint64_t *program, uint64_t *program_len,
                             uint64_t *wiring, uint64_t *wiring_len, uint64_t *level, uint64_t *level_len,
                             uint64_t *value);

/* Puts three bodies together into a book; *count is its length, and bytes beyond it stay. A program of another length
   than 8,192 is 10 here. Can answer 7, 10, 11. */
uint32_t galhoveia_book_write(const uint8_t *program, size_t program_len, const uint8_t *wiring, size_t wiring_len,
                              const uint8_t *level, size_t level_len, uint8_t *book, size_t room,
                              uint64_t *count, uint64_t *value);

/* Writes a program as text: a line for each address, ascending. A line is the address (3 digits), the word (4), the
   data sheet's mnemonic and its operands in the sheet's order, with one space between items and a line feed at the end;
   digits are upper-case hexadecimal. A cell (bank x 128 + X, or X) and a target have 3 digits, an immediate number and
   RTNW's two nibbles have 1; a branch and CALL show the word's own eleven bits. A word that is no instruction has the
   mark DATA.

     013 3CA0 STA 0A0
     011 48A0 ADIM 020 1
     A34 8923 BNC 123
     022 D042 RTNW 4 2
     FFF FFFF NOP
     029 CB80 DATA

   *count is the bytes written, and bytes beyond them stay. GALHOVEIA_LISTING_BYTES_MOST bytes are always room enough.
   Can answer 1, 7 (with the length of this program's listing). */
uint32_t galhoveia_listing_write(const uint8_t *program, size_t program_len, uint8_t *text, size_t room,
                                 uint64_t *count, uint64_t *value);

/* Reads such a text back into the program's 8,192 bytes. A text is taken only if it is exactly what
   galhoveia_listing_write gives for some program: all 4,096 lines, each as it is written there, and nothing behind
   them. A room of more than 8,192 bytes is taken, and the bytes beyond stay. Can answer 7, 26; an empty text is 26
   with 0, a text whose last line feed is missing 26 with 4095, and one with anything behind 4,096 good lines 26 with
   4096. */
uint32_t galhoveia_listing_read(const uint8_t *text, size_t text_len, uint8_t *program, size_t room, uint64_t *value);

#ifdef __cplusplus
}
#endif

#endif
