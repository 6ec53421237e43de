/* Every old and every new nibble of a port's pins, with every control nibble and both directions, on random machines in
   every mode; the requests that follow are also held to the documents' words. */
#include "compare.h"
#include "support.h"

enum { PORTS = 4, NIBBLES = 16, DIRECTIONS = 4, IRQP = 1, IRQX = 8 };
enum { REQUESTS = 0x001, EDGE_CHOICE = 0x013, CONTROL = 0x016 };

/* The request that new pins make (01, Edges): PORTA.0 sets IRQX, any bit of ports B and C IRQP, each where it is an input
   and moves in its direction, $013 bit 0 for port A and bit 1 for the others; 1 is rising. */
static unsigned request_of(unsigned port, unsigned old, unsigned now, unsigned control, unsigned directions)
{
    unsigned rising = directions >> (port > 0) & 1, edges = 0;

    for (unsigned bit = 0; bit < 4; bit++) {
        unsigned was = old >> bit & 1, is = now >> bit & 1, output = control >> bit & 1;

        edges |= (unsigned)(!output && was != is && is == rising) << bit;
    }
    if (port == 0)
        return edges & 1 ? IRQX : 0;
    return port < 3 && edges ? IRQP : 0;
}

static unsigned long asked;

/* Neither request stands before, so that each shows. */
static void step_pins(unsigned port, unsigned old, unsigned now, unsigned control, unsigned directions)
{
    static const uint8_t program[PROGRAM_BYTES];
    struct machine machine;
    unsigned request = request_of(port, old, now, control, directions);
    uint32_t answer;

    random_machine(&machine);
    machine.memory[REQUESTS] &= (uint8_t)~(IRQX | IRQP);
    machine.memory[EDGE_CHOICE] = (uint8_t)((machine.memory[EDGE_CHOICE] & ~3U) | directions);
    machine.memory[CONTROL + port] = (uint8_t)control;
    machine.record[R_PINS + port] = (uint8_t)old;
    answer = pair_step(LENT(program), LENT(machine.memory), LENT(machine.record), (uint8_t)(PINS_A + 16 * port + now));
    expect("pins", answer, 0, 0);
    check((after.memory[REQUESTS] & (IRQX | IRQP)) == request && after.record[R_PINS + port] == now,
          "port %c from %u to %u, control %u, $013 %u: requests %u, pins %u", 'A' + port, old, now, control, directions,
          after.memory[REQUESTS], after.record[R_PINS + port]);
    asked += request != 0;
}

void compare_pins(void)
{
    unsigned long steps = 0;

    for (unsigned port = 0; port < PORTS; port++)
        for (unsigned directions = 0; directions < DIRECTIONS; directions++)
            for (unsigned control = 0; control < NIBBLES; control++)
                for (unsigned old = 0; old < NIBBLES; old++)
                    for (unsigned now = 0; now < NIBBLES; now++, steps++)
                        step_pins(port, old, now, control, directions);
    progress("pins: every old and new nibble, control and direction of each port, %lu steps, %lu with a request; failed so "
             "far %lu", steps, asked, failed);
}
