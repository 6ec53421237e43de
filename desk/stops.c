/* What a run's panel shows where the run stops. */
#include "stops.h"

#include "progress.h"

#include <string.h>

/* A part of the run is at least as long as this and at most as long as that; in between it is twice as long as the way
   to the last stop, since each part is judged whole before anything moves. */
enum { PART_LEAST = 64, PART_MOST = 1 << 22 };

long level_by(const struct level *level, unsigned base)
{
    return (long)(base * level->digit[HIGH] + level->digit[LOW]) - (long)level->ground;
}

/* What the panel shows in one state. */
static void look_at(struct stand *stand, const struct book *book, const struct state *state)
{
    memset(&stand->picture, 0, sizeof stand->picture);
    stand->picture_answer.refusal = ask_picture(book, state, &stand->picture, &stand->picture_answer.value);
    stand->level_answer.refusal = ask_level(book, state, &stand->level, &stand->level_answer.value);
}

static bool is_same_answer(struct answer one, struct answer other)
{
    return one.refusal == other.refusal && one.value == other.value;
}

static bool shows_the_same(const struct stand *one, const struct stand *other)
{
    return is_same_answer(one->picture_answer, other->picture_answer)
           && is_same_answer(one->level_answer, other->level_answer)
           && memcmp(&one->picture, &other->picture, sizeof one->picture) == 0
           && memcmp(one->level.digit, other->level.digit, sizeof one->level.digit) == 0;
}

static void meet(struct stops *stops, const char *what, struct answer answer, uint64_t events)
{
    struct met *met = stops->met;

    if (answer.refusal == GALHOVEIA_DONE)
        return;
    while (met < stops->met + stops->met_count && !(met->what == what && is_same_answer(met->answer, answer)))
        met++;
    if (met == stops->met + MET_MOST)
        end_in_fault("pictures and levels are refused in more ways than there are");
    if (met == stops->met + stops->met_count) {
        *met = (struct met){what, answer, events, 0};
        stops->met_count++;
    }
    met->times++;
}

/* Keeps a stand, or counts it with the stop before it where that shows the same. The last place is kept for the end. */
static void keep(struct stops *stops, const struct stand *stand)
{
    struct stand *last = stops->count > 0 ? &stops->kept[stops->count - 1] : NULL;

    stops->all++;
    stops->unread += stand->level_answer.refusal != GALHOVEIA_DONE;
    stops->differing += stand->level_answer.refusal == GALHOVEIA_DONE
                        && level_by(&stand->level, OCTAL) != level_by(&stand->level, DECIMAL);
    if (stand->place == AT_STOP && stops->left_out == 0 && last->place == AT_STOP && shows_the_same(last, stand)) {
        last->more++;
        last->until = stand->events;
    } else if (stand->place == AT_STOP && stops->count == STANDS_MOST - 1) {
        stops->left_out++;
    } else {
        stops->kept[stops->count++] = *stand;
    }
}

static void keep_state(struct stops *stops, enum place place, uint64_t events, const struct book *book,
                       const struct state *state)
{
    static const char picture[] = "the picture", level[] = "the level";
    struct stand stand = {.place = place, .events = events};

    look_at(&stand, book, state);
    meet(stops, picture, stand.picture_answer, events);
    meet(stops, level, stand.level_answer, events);
    keep(stops, &stand);
}

/* All events are known to be events, since the run has done them. */
static bool go_from_stop_to_stop(struct stops *stops, const struct run *run, uint32_t stop, struct state *now)
{
    uint64_t done = 0, since = 0;
    size_t most = PART_LEAST;

    while (done < run->done) {
        const size_t rest = (size_t)(run->done - done);
        const struct bytes part = {run->events.at + done, rest < most ? rest : most};
        uint32_t reason = GALHOVEIA_AT_END;
        uint64_t moved = 0, value = 0;
        uint32_t refusal = run_part(run->book, now, part, stop, &reason, &moved, &value);

        if (refusal != GALHOVEIA_DONE || (moved == 0 && part.length > 0)) {
            say_refusal("a part of the run", refusal, value);
            return say_fault("event %llu was done by the run", (unsigned long long)(done + moved));
        }
        done += moved;
        since += moved;
        progress_at(done);
        most = since < PART_LEAST / 2 ? PART_LEAST : since > PART_MOST / 2 ? PART_MOST : 2 * (size_t)since;
        if (reason == GALHOVEIA_AT_ADDRESS) {
            keep_state(stops, AT_STOP, done, run->book, now);
            since = 0;
        }
    }
    return true;
}

void look_at_start(struct stops *stops, const struct book *book, const struct state *state)
{
    memset(stops, 0, sizeof *stops);
    keep_state(stops, AT_START, 0, book, state);
}

bool look_at_stops(struct stops *stops, const struct run *run, uint32_t stop)
{
    struct state now = run->start;
    bool faultless;

    look_at_start(stops, run->book, &now);
    begin_progress("events run from stop to stop", run->done);
    faultless = go_from_stop_to_stop(stops, run, stop, &now);
    end_progress();
    keep_state(stops, AT_THE_END, run->done, run->book, &run->end);
    if (faultless && memcmp(&now, &run->end, sizeof now) != 0)
        faultless = say_fault("a run from stop to stop and the run without a stop come to different states");
    return faultless;
}
