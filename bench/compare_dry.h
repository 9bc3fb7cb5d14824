/* Hours by their moisture: of units that measure dry gas, and of others that may have none. */
#ifndef COMPARE_DRY_H
#define COMPARE_DRY_H

#include "books.h"

/* Single hours at the edges of moisture, number and readings, on every sort of unit, and drawn ones
   with many halves of R. */
void compare_dry(struct bytes *b);

/* Says what was met, and stops unless that is every reason that each sort of unit has with each
   moisture, no other, and halves of R that go either way. */
void tell_dry(void);

#endif
