/* Fuel records at the ends of their ranges. */
#ifndef COMPARE_FUEL_H
#define COMPARE_FUEL_H

#include "books.h"

/* Amounts, carbon and months about the ends of their ranges, under every flag, of each sort of fuel
   in a small unit, a big one and one with a monitor. */
void compare_fuel(struct bytes *b);

/* Says what was met, and stops unless some counted and some were set aside by each reason due. */
void tell_fuel(void);

#endif
