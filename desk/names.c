/* The names that the data sheet gives to registers and their bits (003, section 3.2). */
#include "names.h"

#include <string.h>
#include <strings.h>

/* In the sheet's order, but bit 0 first. The two DUTY bits of $015 are those of sections 3.3 and 10; 3.2 has them the
   other way round. */
const struct sheet_register sheet_registers[REGISTERS] = {
    {0x000, NULL, {"IEP", "IEBT", "IET0", "IEX"}, "interrupt enable flags"},
    {0x001, NULL, {"IRQP", "IRQBT", "IRQT0", "IRQX"}, "interrupt request flags"},
    {0x002, "TM0", {"TM0.0", "TM0.1", "TM0.2", "TM0.3"}, "Timer0 mode register"},
    {0x003, "BTM", {"BTM.0", "BTM.1", "BTM.2", "BTM.3"}, "base timer mode register"},
    {0x004, "TL0", {"TL0.0", "TL0.1", "TL0.2", "TL0.3"}, "Timer0 load/counter register, low nibble"},
    {0x005, "TH0", {"TH0.0", "TH0.1", "TH0.2", "TH0.3"}, "Timer0 load/counter register, high nibble"},
    {0x006, NULL, {NULL}, "reserved"},
    {0x007, NULL, {"RLCD0", "RLCD1", "LCDON", NULL}, "LCD divider resistors, LCD on/off"},
    {0x008, "PORTA", {"PA.0", "PA.1", "PA.2", "PA.3"}, "port A"},
    {0x009, "PORTB", {"PB.0", "PB.1", "PB.2", "PB.3"}, "port B"},
    {0x00A, "PORTC", {"PC.0", "PC.1", "PC.2", "PC.3"}, "port C"},
    {0x00B, "PORTD", {"PD.0", "PD.1", "PD.2", "PD.3"}, "port D"},
    {0x00C, NULL, {"BD0", "BD1", "PAM1", "PAM2"}, "bonding option; PORTA.1 and PORTA.2 as sound output"},
    {0x00D, NULL, {"O/S0", "O/S1", "O/S2", "LVD"}, "segments as ports, LCD voltage"},
    {0x00E, "TBR", {"TBR.0", "TBR.1", "TBR.2", "TBR.3"}, "table branch register"},
    {0x00F, "INX", {"INX.0", "INX.1", "INX.2", "INX.3"}, "pseudo index register"},
    {0x010, "DPL", {"DPL.0", "DPL.1", "DPL.2", "DPL.3"}, "data pointer for INX, low nibble"},
    {0x011, "DPM", {"DPM.0", "DPM.1", "DPM.2", NULL}, "data pointer for INX, middle nibble"},
    {0x012, "DPH", {"DPH.0", "DPH.1", "DPH.2", NULL}, "data pointer for INX, high nibble"},
    {0x013, NULL, {"EINFR", "PBCFR", "PH/PL", "PULLEN"}, "edges of interrupts, pull resistors"},
    {0x014, NULL, {"OXON", "OXM", NULL, "OXS"}, "oscillators"},
    {0x015, NULL, {"DUTY0", "DUTY1", "LPS0", "LPS1"}, "LCD duty and frequency"},
    {0x016, "PACR", {"PACR.0", "PACR.1", "PACR.2", "PACR.3"}, "port A input/output control"},
    {0x017, "PBCR", {"PBCR.0", "PBCR.1", "PBCR.2", "PBCR.3"}, "port B input/output control"},
    {0x018, "PCCR", {"PCCR.0", "PCCR.1", "PCCR.2", "PCCR.3"}, "port C input/output control"},
    {0x019, "PDCR", {"PDCR.0", "PDCR.1", "PDCR.2", "PDCR.3"}, "port D input/output control"},
    {0x01A, NULL, {"RDT.0", "RDT.1", "RDT.2", "RDT.3"}, "ROM data table address/data register"},
    {0x01B, NULL, {"RDT.4", "RDT.5", "RDT.6", "RDT.7"}, "ROM data table address/data register"},
    {0x01C, NULL, {"RDT.8", "RDT.9", "RDT.10", "RDT.11"}, "ROM data table address/data register"},
    {0x01D, NULL, {"RDT.12", "RDT.13", "RDT.14", "RDT.15"}, "ROM data table address/data register"},
    {0x01E, "WDT", {"WDT.0", "WDT.1", "WDT.2", "WDF"}, "watchdog timer control, its overflow flag"},
    {0x01F, NULL, {NULL}, "reserved"},
    {0x370, NULL, {"C1M", "C2M", "SEL0", "SEL1"}, "sound: modes, clock source"},
    {0x371, NULL, {"C1.0", "C1.1", "C1.2", "C1.3"}, "sound channel 1, low nibble"},
    {0x372, NULL, {"C1.4", "C1.5", "C1.6", "OCT1"}, "sound channel 1, high nibble, octave"},
    {0x373, NULL, {"C2.0", "C2.1", "C2.2", "C2.3"}, "sound channel 2, nibble 1, or alarm"},
    {0x374, NULL, {"C2.4", "C2.5", "C2.6", "C2.7"}, "sound channel 2, nibble 2"},
    {0x375, NULL, {"C2.8", "C2.9", "C2.10", "C2.11"}, "sound channel 2, nibble 3"},
    {0x376, NULL, {"C2.12", "C2.13", "C2.14", "OCT2"}, "sound channel 2, nibble 4, octave"},
    {0x377, NULL, {"CH1EN", "CH2EN", "VOL0", "VOL1"}, "sound: channels on, volume"},
};

const struct sheet_register *register_at(unsigned cell)
{
    for (int at = 0; at < REGISTERS; at++)
        if (sheet_registers[at].cell == cell)
            return &sheet_registers[at];
    return NULL;
}

static bool is_named(const char *name, const char *text, size_t length)
{
    return name != NULL && strlen(name) == length && strncasecmp(name, text, length) == 0;
}

bool find_name(const char *text, size_t length, const struct sheet_register **found, unsigned *bit)
{
    for (int at = 0; at < REGISTERS; at++) {
        *found = &sheet_registers[at];
        for (*bit = 0; *bit < BITS; ++*bit)
            if (is_named((*found)->bit[*bit], text, length))
                return true;
        if (is_named((*found)->name, text, length))
            return true;
    }
    return false;
}
