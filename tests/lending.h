/* What a call on both sides is lent, each side its own copy, and how the copies are compared afterwards. */
#ifndef TESTS_LENDING_H
#define TESTS_LENDING_H

#include "support.h"

enum side { GALHOVEIA, SECOND, SIDES };
enum slot {
    SLOT_PROGRAM, SLOT_MEMORY, SLOT_RECORD, SLOT_SCRIPT, SLOT_BODY, SLOT_OTHER_BODY, SLOT_OUTPUT, SLOT_OTHER_MEMORY,
    SLOT_OTHER_RECORD, SLOT_OTHER_OUTPUT, SLOT_TABLES, SLOTS
};

/* Where each side holds what it was lent. */
extern uint8_t *held[SIDES][SLOTS];

void give(enum slot slot, struct lent lent);

/* One lent area after both calls. */
void compare_area(enum call call, const char *area, enum slot slot, struct lent lent, bool may_change);

#endif
