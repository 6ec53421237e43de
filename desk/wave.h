/* What the two sound channels put out while a script's events happen: heard clock by clock, written as a WAV file, and
   counted in strokes. */
#ifndef DESK_WAVE_H
#define DESK_WAVE_H

#include "run.h"

/* The sound clocks that the data sheet has music tables for, in Hz (003, section 12). */
enum { RATE_USUAL = 32768, RATE_FAST = 112500 };

/* outputs[0] is what stands before the first clock, outputs[n] what stands after clock n: bit 0 channel 1, bit 1
   channel 2. The caller gives them back. */
struct sound {
    uint8_t *outputs;
    size_t clocks;
};

/* Lets the events that a run has done happen again, from the state in which it began, and listens at every sound clock.
   Answers false for a fault, which is said: another end than the run's. */
bool hear(struct sound *sound, const struct run *run);

/* Writes a WAV file, one frame for each sound clock, channel 1 left and channel 2 right, and says what is in it. */
void write_wave(const char *path, const struct sound *sound, uint32_t rate, bool force);

/* How often channel 1 began to sound: turns of its output, with silence before them that no tone has between two
   turns. */
size_t strokes_in(const struct sound *sound);

#endif
