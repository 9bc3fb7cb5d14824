/* The lines of the bench's books, one at a time. A line is all zeros before it is written. */
#ifndef BOOK_LINES_H
#define BOOK_LINES_H

#include "books.h"

enum { VOLUME_AT = 20 }; /* of a fuel line */

/* A little-endian number of so many bytes. */
void put(uint8_t *at, uint64_t value, size_t bytes);

/* The number of unit or fuel i. There are gaps, so that a look-up can't be an index. */
uint32_t number_of(size_t i);

void write_unit(uint8_t *l, enum mix mix, size_t i);
void write_fuel(uint8_t *l, enum mix mix, size_t i);

/* Records that count, with numbers drawn from `row`. */
void write_burned(uint8_t *l, size_t unit, size_t fuel, uint64_t *row);
void write_hour(uint8_t *l, size_t unit, uint64_t *row);

/* Anodes that count: place i of a year that goes month by month, and in each through all units. */
void write_monthly(uint8_t *l, size_t units, size_t i, uint64_t *row);

/* Anodes and analysed gas as they are given, right or not. */
void write_anodes(uint8_t *l, const struct anodes *anodes);
void write_gas(uint8_t *l, const struct gas *gas);

/* A record of this unit by the recipe. */
void write_record(uint8_t *l, const struct recipe *recipe, size_t unit, uint64_t *row);

#endif
