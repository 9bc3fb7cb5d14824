/* Analysed gas by what it holds. */
#ifndef COMPARE_GAS_H
#define COMPARE_GAS_H

#include "books.h"

/* Single records at the ends of each range and past them on every sort of unit and fuel, with every
   pattern of flags and each byte filled that must be 0. */
void compare_gas(struct bytes *b);

/* Says what was met, and stops unless that is every reason that analysed gas has on each sort of
   unit and fuel, no other, and each heat by each method. */
void tell_gas(void);

#endif
