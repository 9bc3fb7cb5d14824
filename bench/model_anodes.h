/* Anodes by the requirements, worked out as by hand. */
#ifndef MODEL_ANODES_H
#define MODEL_ANODES_H

#include "books.h"

/* Why record i, which is anodes, is set aside where nothing stands before it; 0 if it counts. */
unsigned reason_of_anodes(const struct bytes *b, size_t i);

/* The CO2 of anodes that count: its tenths of a ug before they are rounded, as the last digit, and
   whole ug after. */
struct anodes_co2 {
    unsigned tenths;
    uint64_t ug;
};

struct anodes_co2 co2_of_anodes(const uint8_t *l);

#endif
