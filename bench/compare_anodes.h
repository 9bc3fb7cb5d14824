/* Anodes by what they hold. */
#ifndef COMPARE_ANODES_H
#define COMPARE_ANODES_H

#include "books.h"

/* Sums worked by hand, single anodes at the ends of each range and past them on every sort of unit,
   with each byte filled that must be 0, and drawn ones. */
void compare_anodes(struct bytes *b);

/* Says what was met, and stops unless that is every reason that anodes have on each sort of unit,
   no other, impurities of 100 percent that count, and CO2 that is rounded either way. */
void tell_anodes(void);

#endif
