/* Whether the library and the plain C answer alike. */
#ifndef COMPARE_H
#define COMPARE_H

#include "books.h"

/* Every call on a recipe's book, under each set of warming values. */
void compare_sets(struct bytes *b, const struct recipe *recipe);

/* Books and buffers that are refused, records set aside, and sets of warming values that change
   between two calls. Says how many calls were compared, and stops unless each call gave all that
   it can. */
void compare_damaged(void);

#endif
