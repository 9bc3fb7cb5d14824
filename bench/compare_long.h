/*
 * The records of a short book in a wake of many. The plain C judges few records otherwise than
 * many, and hours and anodes of many by a table, once it is begun.
 */
#ifndef COMPARE_LONG_H
#define COMPARE_LONG_H

#include "books.h"

/* Whether the book, which is accepted, has so few records that compare_long makes it longer. */
int is_short_book(const struct bytes *b);

/* A wake of all records of the book made longer: before them stand an hour and anodes of its first
   units, and behind them records of no kind, so that the first fault told is one of theirs. */
void compare_long(const struct bytes *b, const char *name);

/* Says what became of each kind of record, and stops unless each that can be was met. */
void tell_long(void);

#endif
