/* Finds by trial which cells an instruction word can change: it executes the word in every state that could matter and
   looks at the cells afterwards, so it rests on no list of which mnemonics write. */
#include "search.h"

#include "judging.h"
#include "second.h"

#include <stddef.h>
#include <string.h>

enum { DPL = 0x010, DPM = 0x011, DPH = 0x012, FIRST_DATA = 0x020, LAST_SCAN = 0x36D, NIBBLES = 16, CARRIES = 2 };

/* Cells that do something when read or written, an unmapped one, the pseudo register itself, and the two ends of
   the data cells: through the pointer none of them may reach the asked cell. */
static const uint16_t elsewhere[] = {0x000, 0x002, 0x003, 0x004, 0x005, 0x008, 0x00F, 0x01A,
                                     0x01E, 0x020, 0x16F, 0x170, 0x300, 0x36D, 0x377, 0x3FF};

/* A running machine with nothing enabled or requested, so that the cycle would execute the word. */
static void make_plain(struct second_machine *machine)
{
    uint8_t memory[SECOND_CELLS];
    uint8_t record[SECOND_RECORD_BYTES];
    uint64_t value;

    (void)second_fresh(memory, sizeof memory, record, sizeof record, 0, &value);
    second_unpack(machine, memory, record);
}

static void point_at(struct second_machine *machine, uint16_t cell)
{
    machine->cell[DPL] = cell & 15;
    machine->cell[DPM] = cell >> 4 & 7;
    machine->cell[DPH] = cell >> 7 & 7;
}

static bool changes_with_pointer(const struct second_machine *plain, uint16_t word, uint16_t cell, uint16_t pointer)
{
    struct second_machine start = *plain;
    struct second_machine trial;

    point_at(&start, pointer);
    for (uint8_t held = 0; held < NIBBLES; held++) {
        start.cell[cell] = held;
        for (uint8_t ac = 0; ac < NIBBLES; ac++) {
            start.ac = ac;
            for (uint8_t cy = 0; cy < CARRIES; cy++) {
                start.cy = cy;
                trial = start;
                if (!second_execute(&trial, word))
                    return false;
                if (trial.cell[cell] != held)
                    return true;
            }
        }
    }
    return false;
}

/* The trials are exact, for two reasons. What an instruction stores is made of the cell it reads, AC, CY and its own
   bits; when the cell it stores in is the asked one, it is also the one it reads, and all 16 x 16 x 2 of these states
   are tried. And it stores in the asked cell only when the word itself names it or when the word names $00F while
   the pointer stands there: a data, display or scan cell is no port, timer or read-out register, so no store
   elsewhere spills into it, and the landing ROM read and the timers write other cells. The pointer is therefore set
   to the asked cell for every word. The pointers elsewhere can add nothing if this is right; they are tried, for every
   word whose low seven bits are $0F (all that name $00F are among these), to catch an emulator in which it is not. */
bool search_changes(uint16_t word, uint16_t cell)
{
    struct second_machine plain;

    make_plain(&plain);
    if (changes_with_pointer(&plain, word, cell, cell))
        return true;
    if ((word & 0x7F) == 0x0F)
        for (size_t place = 0; place < sizeof elsewhere / sizeof elsewhere[0]; place++)
            if (changes_with_pointer(&plain, word, cell, elsewhere[place]))
                return true;
    return false;
}

/* ---- Which cell a word is kept under ---- */

/* A plain machine in which all data, display and scan cells hold the same nibble; made once, since every word needs
   all sixteen. */
static const struct second_machine *machine_holding(uint8_t nibble)
{
    static struct second_machine machine[NIBBLES];
    static bool made;

    for (uint8_t held = 0; !made && held < NIBBLES; held++) {
        make_plain(&machine[held]);
        for (uint16_t cell = FIRST_DATA; cell <= LAST_SCAN; cell++)
            if (second_is_data_display_or_scan(cell))
                machine[held].cell[cell] = held;
    }
    made = true;
    return &machine[nibble];
}

/* The data, display or scan cell that the word changes in the first state in which it changes one. What it reads is the
   same nibble whichever of them it names; the cells between them are unmapped and never change. */
static uint16_t changed_with_pointer(uint16_t word, uint16_t pointer)
{
    struct second_machine start, trial;

    for (uint8_t held = 0; held < NIBBLES; held++) {
        start = *machine_holding(held);
        point_at(&start, pointer);
        for (unsigned state = 0; state < NIBBLES * CARRIES; state++) {
            uint16_t changed = FIRST_DATA;

            start.ac = state % NIBBLES;
            start.cy = (uint8_t)(state / NIBBLES);
            trial = start;
            if (!second_execute(&trial, word))
                return SEARCH_NONE;
            if (memcmp(trial.cell + FIRST_DATA, start.cell + FIRST_DATA, LAST_SCAN + 1 - FIRST_DATA) == 0)
                continue;
            while (trial.cell[changed] == start.cell[changed])
                changed++;
            return changed;
        }
    }
    return SEARCH_NONE;
}

/* A cell that the word changes wherever the pointer stands is the one that it names; where the changed cell goes with
   the pointer, it writes through $00F. */
uint16_t search_kept_under(uint16_t word)
{
    uint16_t changed = changed_with_pointer(word, FIRST_DATA);

    if (changed == SEARCH_NONE || changed == changed_with_pointer(word, LAST_SCAN))
        return changed;
    return SEARCH_POINTED;
}
