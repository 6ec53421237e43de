/* What the desk was made of. */
#ifndef DESK_MADE_H
#define DESK_MADE_H

/* The commit, with a mark where the tree had changes besides; unknown where it was no tree of git. */
extern const char made_of[];

#endif
