/* Whether time a record grows with the book. */
#ifndef FLAT_H
#define FLAT_H

#include "books.h"

/* A table of one wake over books of several lengths, up to the longest. */
void time_flat(struct bytes *b);

#endif
