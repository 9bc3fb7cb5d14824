/* How much stack the library's calls take. */
#ifndef BENCH_STACK_H
#define BENCH_STACK_H

#include "books.h"

/* Tells the most that each call touches on any of these books, under this name. Wakes are told
   apart: of all records and of the last 100; of the last one alone; and again of all and of the
   last 100 where a book has fuel alone, analysed gas alone or anodes alone. */
void tell_stack(struct bytes *b, const char *name, const struct recipe *books, size_t count);

#endif
