/* What a run's panel shows where the run stops: at its start, whenever it comes to an address, and at its end. */
#ifndef DESK_STOPS_H
#define DESK_STOPS_H

#include "run.h"

/* What the library answered: 0 or a refusal with its value. */
struct answer {
    uint32_t refusal;
    uint64_t value;
};

enum place { AT_START, AT_STOP, AT_THE_END };

struct stand {
    enum place place;
    uint64_t events; /* how many were done before it */
    struct answer picture_answer, level_answer;
    struct picture picture;
    struct level level;
    uint64_t more, until; /* how many stops right after it show the same, and the events done before the last of them */
};

/* A refusal that was met at one stop or more: of the picture or of the level. */
struct met {
    const char *what;
    struct answer answer;
    uint64_t first, times; /* the events done before the first of these stops, and how many they are */
};

/* The stands that are kept, the start first and the end last. Where there are more in between, they are counted. Of a
   good book the library refuses neither a picture nor a level in more ways than can be kept. */
enum { STANDS_MOST = 40, MET_MOST = 8 };

struct stops {
    struct stand kept[STANDS_MOST];
    size_t count;
    uint64_t all;       /* stands of any place, each stop for itself */
    uint64_t differing; /* of them, those at which the decimal reading is another level */
    uint64_t unread;    /* and those at which there is no level */
    uint64_t left_out;  /* stops that are in no kept stand */
    struct met met[MET_MOST];
    size_t met_count;
};

/* The code that the old emulator made of a level's digits, by taking them as decimal ones. */
enum { OCTAL = 8, DECIMAL = 10 };

long level_by(const struct level *level, unsigned base);

/* Looks at the panel before any event is done, and forgets whatever stops there were. */
void look_at_start(struct stops *stops, const struct book *book, const struct state *state);

/* Lets the events that a run has done happen again, from the state in which it began, and looks at the panel at its
   start, each stop and its end. Answers false for a fault, which is said: another end than the run's. */
bool look_at_stops(struct stops *stops, const struct run *run, uint32_t stop);

#endif
