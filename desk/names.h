/* The names that the data sheet gives to registers and their bits (003, section 3.2), and the cells that have them. */
#ifndef DESK_NAMES_H
#define DESK_NAMES_H

#include <stdbool.h>
#include <stddef.h>

enum { BITS = 4, REGISTERS = 40 };

/* The cells that the desk itself looks at. Ports stand behind each other as their pins do, and so do the cells that a
   read of program data fills. */
enum {
    INTERRUPTS_ENABLED = 0x000, INTERRUPTS_REQUESTED = 0x001, TIMER0_LOW = 0x004, TIMER0_HIGH = 0x005, PORT_A = 0x008,
    PORT_D = 0x00B, DATA_READ = 0x01A, DATA_READ_END = 0x01D
};

struct sheet_register {
    unsigned cell;
    const char *name;      /* PORTA, TM0; NULL where the sheet has no name for all four bits, or none but theirs */
    const char *bit[BITS]; /* bit 0 first; NULL for a bit that is not there */
    const char *remark;
};

extern const struct sheet_register sheet_registers[REGISTERS];

/* The register at a cell; NULL where there is none. */
const struct sheet_register *register_at(unsigned cell);

/* Finds a register by its name or a bit's (TM0, portb, IEX, PA.1; capitals and small letters are one). Answers whether
   there is one; *bit is then the bit's number, or BITS for the register itself. */
bool find_name(const char *text, size_t length, const struct sheet_register **found, unsigned *bit);

#endif
