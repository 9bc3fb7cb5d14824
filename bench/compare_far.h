/* Repeats that stand far apart, and the heaviest masses, in the longest book. */
#ifndef COMPARE_FAR_H
#define COMPARE_FAR_H

#include "books.h"

void compare_far(struct bytes *b);

/* Says what was met. */
void tell_far(void);

#endif
