/* What a wake late in a book takes. */
#ifndef LATE_H
#define LATE_H

#include "books.h"

/* Rows of a wake of one record, for each kind that the book has the last of that kind. */
void time_lasts_of(struct bytes *b, const struct recipe *recipe);

/* A table of wakes at the end of the longest books. */
void time_late(struct bytes *b);

#endif
