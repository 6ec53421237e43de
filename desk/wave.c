/* What the two sound channels put out. */
#include "wave.h"

#include "progress.h"

#include <stdio.h>
#include <string.h>

enum { CHANNELS = 2, LEFT = 1, RIGHT = 2 };

/* ---- Hearing ---- */

static uint8_t outputs_of(const struct state *state)
{
    return (uint8_t)((state->record[GALHOVEIA_RECORD_OUTPUT_1] ? LEFT : 0)
                     | (state->record[GALHOVEIA_RECORD_OUTPUT_2] ? RIGHT : 0));
}

/* Events without a sound clock among them, which the run before has done. Mostly it is one cycle, which a step takes in
   a fraction of a run's time. */
static uint32_t pass(const struct book *book, struct state *now, const uint8_t *events, size_t length, uint64_t *value)
{
    uint32_t reason;
    uint64_t done;

    if (length == 0)
        return GALHOVEIA_DONE;
    if (length == 1)
        return step_once(book, now, *events, value);
    return galhoveia_run(book->program.at, book->program.length, now->memory, sizeof now->memory, now->record,
                         sizeof now->record, events, length, GALHOVEIA_NO_STOP, &reason, &done, value);
}

/* Answers 0 or the refusal that ended it. */
static uint32_t listen(struct sound *sound, const struct run *run, struct state *now, uint64_t *value)
{
    const uint8_t *events = run->events.at;
    size_t at = 0, done = (size_t)run->done;

    while (at < done) {
        const uint8_t *next = memchr(events + at, GALHOVEIA_EVENT_SOUND, done - at);
        size_t silent = (next ? (size_t)(next - events) : done) - at;
        uint32_t refusal = pass(run->book, now, events + at, silent, value);

        at += silent;
        if (refusal == GALHOVEIA_DONE && next != NULL) {
            refusal = step_once(run->book, now, GALHOVEIA_EVENT_SOUND, value);
            sound->outputs[++sound->clocks] = outputs_of(now);
            at++;
        }
        if (refusal != GALHOVEIA_DONE)
            return refusal;
        progress_at(at);
    }
    return GALHOVEIA_DONE;
}

bool hear(struct sound *sound, const struct run *run)
{
    struct state now = run->start;
    uint64_t value = 0;
    uint32_t refusal;

    *sound = (struct sound){take_memory(count_done(run, GALHOVEIA_EVENT_SOUND) + 1, 1), 0};
    sound->outputs[0] = outputs_of(&now);
    begin_progress("events heard", run->done);
    refusal = listen(sound, run, &now, &value);
    end_progress();
    if (refusal == GALHOVEIA_DONE && memcmp(&now, &run->end, sizeof now) == 0)
        return true;
    if (refusal != GALHOVEIA_DONE)
        say_refusal("the run, sound clock by sound clock", refusal, value);
    say_fault("sound clock by sound clock the run comes to another end");
    return ask_report();
}

/* ---- The file ---- */

/* A frame is one sample of 16 bits for each channel; numbers have the low byte first, as RIFF files do. */
enum {
    HEADER_BYTES = 44, FORMAT_BYTES = 16, PCM = 1, SAMPLE_BITS = 16, FRAME_BYTES = CHANNELS * SAMPLE_BITS / 8,
    RIFF_AFTER = 8, LEVEL = 0x2000
};

static uint8_t *give_text(uint8_t *to, const char *four)
{
    memcpy(to, four, 4);
    return to + 4;
}

static uint8_t *give_number(uint8_t *to, uint32_t number, int bytes)
{
    for (int at = 0; at < bytes; at++)
        to[at] = (uint8_t)(number >> 8 * at);
    return to + bytes;
}

static uint8_t *give_header(uint8_t *to, uint32_t data_bytes, uint32_t rate)
{
    to = give_text(to, "RIFF");
    to = give_number(to, HEADER_BYTES - RIFF_AFTER + data_bytes, 4);
    to = give_text(to, "WAVE");
    to = give_text(to, "fmt ");
    to = give_number(to, FORMAT_BYTES, 4);
    to = give_number(to, PCM, 2);
    to = give_number(to, CHANNELS, 2);
    to = give_number(to, rate, 4);
    to = give_number(to, rate * FRAME_BYTES, 4);
    to = give_number(to, FRAME_BYTES, 2);
    to = give_number(to, SAMPLE_BITS, 2);
    to = give_text(to, "data");
    return give_number(to, data_bytes, 4);
}

static size_t turns_of(const struct sound *sound, uint8_t channel)
{
    size_t turns = 0;

    for (size_t clock = 1; clock <= sound->clocks; clock++)
        turns += (sound->outputs[clock] ^ sound->outputs[clock - 1]) & channel ? 1 : 0;
    return turns;
}

void write_wave(const char *path, const struct sound *sound, uint32_t rate, bool force)
{
    size_t length = HEADER_BYTES + FRAME_BYTES * sound->clocks;
    uint8_t *file, *to;

    if (sound->clocks > (UINT32_MAX - HEADER_BYTES) / FRAME_BYTES)
        fail("%s: a WAV file has no room for %zu sound clocks", path, sound->clocks);
    file = take_memory(length, 1);
    to = give_header(file, (uint32_t)(FRAME_BYTES * sound->clocks), rate);
    for (size_t clock = 1; clock <= sound->clocks; clock++) {
        to = give_number(to, sound->outputs[clock] & LEFT ? LEVEL : 0, SAMPLE_BITS / 8);
        to = give_number(to, sound->outputs[clock] & RIGHT ? LEVEL : 0, SAMPLE_BITS / 8);
    }
    write_file(path, file, length, force);
    give_back(file);
    if (sound->clocks == 0)
        printf("%s: no sound clock was done, so there is nothing to hear\n", path);
    else
        printf("%s: %zu sound clocks, %.3f s at %lu Hz; turns of the output: channel 1 %zu, channel 2 %zu\n", path,
               sound->clocks, (double)sound->clocks / rate, (unsigned long)rate, turns_of(sound, LEFT),
               turns_of(sound, RIGHT));
}

/* ---- Strokes ---- */

/* The lowest tone turns every 8 x 127 clocks, and its period has two turns. */
enum { LONGEST_PERIOD = 2 * 8 * 127 };

size_t strokes_in(const struct sound *sound)
{
    size_t strokes = 0, silent = LONGEST_PERIOD + 1;

    for (size_t clock = 1; clock <= sound->clocks; clock++) {
        bool turns = (sound->outputs[clock] ^ sound->outputs[clock - 1]) & LEFT;

        strokes += turns && silent > LONGEST_PERIOD;
        silent = turns ? 0 : silent + 1;
    }
    return strokes;
}
