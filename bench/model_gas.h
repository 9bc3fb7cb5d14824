/* Analysed gas by the requirements, worked out as by hand. */
#ifndef MODEL_GAS_H
#define MODEL_GAS_H

#include "books.h"

/* What record i, which is analysed gas, comes to. One with a reason has nothing else, one without
   its method, CO2 in ug, CH4 and N2O in ng. */
struct gas_due {
    unsigned reason, method;
    uint64_t co2, ch4, n2o;
};

struct gas_due due_of_gas(const struct bytes *b, size_t i);

/* How CO2 is rounded. Of a half the even number is below or above. */
enum rounding { EXACT, DOWN, UP, HALF_DOWN, HALF_UP, ROUNDINGS };

/* CO2 of analysed gas by method 3, in ug, and how many digits it has before it is divided. */
struct gas_co2 {
    uint64_t ug;
    enum rounding rounding;
    unsigned digits;
};

struct gas_co2 co2_of_gas(const struct bytes *b, size_t i);

#endif
