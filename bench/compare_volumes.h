/* Fuel lines by their molar volume. */
#ifndef COMPARE_VOLUMES_H
#define COMPARE_VOLUMES_H

#include "books.h"

/* Every molar volume up to 30,000 and larger ones, on fuels of every sort; books that are accepted
   are held against the model. */
void compare_volumes(struct bytes *b);

/* Says what was met, and stops unless of each sort of fuel some volume was accepted and some was
   refused. */
void tell_volumes(void);

#endif
