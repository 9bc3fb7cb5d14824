/* The CO2 of analysed gas. */
#ifndef COMPARE_GAS_CO2_H
#define COMPARE_GAS_CO2_H

#include "books.h"

/* Sums worked by hand, records of which next to half of the molar volume is left, and drawn ones of
   several molar volumes. */
void compare_gas_co2(struct bytes *b);

/* Says what was met, and stops unless CO2 was rounded in each way, by odd and by even volumes, of
   products past 64 bits too, and next to a half after odd and after even quotients. */
void tell_gas_co2(void);

#endif
