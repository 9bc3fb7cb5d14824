/* Numbers of units and fuels, how many there are of them, and sums as great as they can be. */
#ifndef COMPARE_NUMBERS_H
#define COMPARE_NUMBERS_H

#include "books.h"

/* Books whose units and fuels are numbered in ways that a look-up by a part of the number mistakes
   for each other, with records that name numbers beside them; wakes of every small budget. */
void compare_numbers(struct bytes *b);

/* Says what was met, and stops unless records named a number that is listed, and one that is not
   and shares its last bits with one that is, under each numbering. */
void tell_numbers(void);

#endif
