/* How far the library and the plain C are from what the machine can do. */
#ifndef LIMITS_H
#define LIMITS_H

#include "books.h"

/* What a record takes in a wake of all, beside what it takes to read its 32 bytes and no more: of a
   full book in cache, and of longest books that come from memory. */
void time_limits(struct bytes *b);

#endif
