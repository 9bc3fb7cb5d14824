/* Hours and anodes whose unit and number stand in an earlier record of the book. */
#ifndef COMPARE_REPEATS_H
#define COMPARE_REPEATS_H

#include "books.h"

/* Pairs of every sort in many places, drawn books with many repeats, full books, and checkpoints
   that name any reason. */
void compare_repeats(struct bytes *b);

#endif
