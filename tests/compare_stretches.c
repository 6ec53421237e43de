/* Stretches of quiet cycles, without sound clocks between them and with, drawn so that they end in each way in which
   one can end. Each goes through galhoveia's run, the second emulator's run, galhoveia's run in two parts, and the
   second emulator's machine event by event, which tells how it ended. All must come to the same answers and the same
   bytes. */
#include "compare.h"
#include "compare_stretches.h"
#include "result.h"

#include "../desk/galhoveia.h"

#include <inttypes.h>

enum { OF_ALL_EVENTS = 5, ROUNDS_LEAST = 4 };

static struct result whole(runs *run)
{
    return by_run(run, drawn.program, &drawn.start, drawn.script, drawn.length, drawn.stop);
}

/* The second part goes on where the first came to its script's end. */
static struct result in_two_parts(runs *run, size_t cut)
{
    struct result first = by_run(run, drawn.program, &drawn.start, drawn.script, cut, drawn.stop), second;

    if (first.answer != 0 || first.reason != AT_END)
        return first;
    second = by_run(run, drawn.program, &first.machine, drawn.script + cut, drawn.length - cut, drawn.stop);
    second.events += cut;
    return second;
}

static struct result by_watching(void)
{
    struct result result = {0, AT_END, 0, 0, drawn.start};
    struct second_machine before, now;

    watch_begins();
    second_unpack(&now, drawn.start.memory, drawn.start.record);
    while (result.events < drawn.length && result.reason == AT_END) {
        uint8_t event = drawn.script[result.events];
        uint64_t done;

        before = now;
        result.reason = second_run_machine(&now, drawn.program, &event, 1, drawn.stop, &done);
        if (result.reason != AT_UNLISTED)
            watch_event(&before, &now, event);
        result.events += done;
    }
    watch_ends(&now, (enum second_reason)result.reason);
    if (result.reason == AT_UNLISTED) {
        result.answer = 6;
        result.value = now.pc;
    }
    second_pack(&now, result.machine.memory, result.machine.record);
    return result;
}

static uint64_t one_stretch(enum way way, bool asleep, bool beside, bool sounding)
{
    struct result ours, second, parts, watched;
    size_t cut;

    draw_stretch(way, asleep, beside, sounding);
    cut = any((uint32_t)drawn.length + 1);
    ours = whole(galhoveia_run);
    second = whole(second_run);
    parts = in_two_parts(galhoveia_run, cut);
    watched = by_watching();

    check(same(&ours, &second),
          "stretch for way %d: run of %zu with stop %u: answer %u/%u, reason %u/%u, events %" PRIu64 "/%" PRIu64, way,
          drawn.length, drawn.stop, ours.answer, second.answer, ours.reason, second.reason, ours.events, second.events);
    check(same(&second, &watched), "stretch for way %d: the second run is not its events", way);
    check(same(&ours, &parts), "stretch for way %d: run of %zu is not its parts, cut at %zu", way, drawn.length, cut);
    return second.events;
}

void compare_stretches(const struct plan *plan)
{
    uint64_t events = 0, stretches = 0;

    for (int round = 0; round < ROUNDS_LEAST || events < plan->events / OF_ALL_EVENTS; round++)
        for (enum way way = 0; way < WAYS; way++)
            for (int variant = 0; variant < 8; variant++)
                if (is_possible(way, variant & 1, variant & 4)) {
                    events += one_stretch(way, variant & 1, variant & 2, variant & 4);
                    stretches++;
                }
    tell_ways();
    progress("stretches: %" PRIu64 " events in %" PRIu64 " runs; failed so far %lu", events, stretches, failed);
}
