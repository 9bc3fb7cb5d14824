/* The books of the bench, the same in every run. */
#ifndef BOOKS_H
#define BOOKS_H

#include <stddef.h>
#include <stdint.h>

enum { BOOK_LINE = 32, WARMING_SETS = 2, LAST_HOUR = 8784, LAST_MONTH = 12 };
enum { LONGEST_BOOK = 4194304, FULL_BOOK = 65536 }; /* full: as docs/SPEED.md calls a book */
enum { YEAR_AT = 16, SET_AT = 20 }; /* bytes of the trailer */
enum { FUEL = 1, HOUR = 2, GAS = 3, ANODES = 4 }; /* kinds of records, in byte 0 */

/* LOW_HEATS: natural gas by its low value. DRY_HOURS: of units that measure dry gas. RISING_HOURS:
   each unit's rise by one, where others are in any order. SITE_HOURS: as a site's logger writes
   them, hour by hour those of all units. REPEATED_HOURS: every second record has an hour that
   stands before, one line up or anywhere, with its readings or with others. Once a unit has all
   hours of a year, what follows repeats them, of a site the same year anew.
   ALL_ANODES: month by month those of all units, and after the last month the same year anew.
   SMELTER: such a year, at most half of the records, in any places of a mixed book. ALL_GAS:
   analysed gas by method 3. REFINERY: a mixed book, half of whose records of a gas are analysed. */
enum mix {
    MIXED,
    ALL_FUEL,
    LOW_HEATS,
    ALL_HOURS,
    DRY_HOURS,
    RISING_HOURS,
    SITE_HOURS,
    REPEATED_HOURS,
    ALL_ANODES,
    SMELTER,
    ALL_GAS,
    REFINERY
};

#define MOST_RECORDS SIZE_MAX

struct recipe {
    const char *name;
    enum mix mix;
    /* records 0: as many as a full book has room for; MOST_RECORDS: as the longest has */
    size_t records, units, fuels;
};

/* With room for a book that is a line too long. For static storage: a stack may be smaller. */
struct bytes {
    size_t length, records, units;
    uint8_t book[LONGEST_BOOK + BOOK_LINE];
};

/* A number below `limit`, the next of a fixed row. */
uint32_t draw(uint64_t *row, uint32_t limit);

/* A sound book, every record of which counts unless it repeats another by its recipe. It has the
   first set of warming values. */
void make_book(struct bytes *b, const struct recipe *recipe);

/* A book with n records of another from record i on, and all its other lines. */
void take_records(struct bytes *some, const struct bytes *b, size_t i, size_t n);

/* Where this byte of the trailer stands in a book. */
size_t in_trailer(const struct bytes *b, size_t at);

/* Unit 0 of a mixed book has a monitor, unit 1 is small and unit 2 big; its first four fuels have
   the classes 1, 2, 3 and 0. Record i becomes one of these with flags and heat as they are given,
   right or not. */
void write_heat(struct bytes *b, size_t i, size_t unit, size_t fuel, uint32_t flags, uint32_t heat);

/* A unit gets these flags, right or not. */
void write_flags(struct bytes *b, size_t unit, uint32_t flags);

/* Units that a record may name. */
enum unit_sort { NO_MONITOR, WET, DRY, UNLISTED, UNIT_SORTS };

/* The three units of a book become one of each sort; the next number isn't listed. */
void write_unit_sorts(struct bytes *b);

/* What an hour holds, right or not: readings by their patterns, moisture in tenths of a percent. A
   unit past the last isn't listed. */
struct hour {
    size_t unit;
    uint32_t number, percent_bits, flow_bits, moisture;
};

/* Record i becomes this hour. */
void write_readings(struct bytes *b, size_t i, const struct hour *hour);

/* What anodes hold, right or not: metal in kg, net use in g per kg of it, and sulphur, ash and
   other impurities in hundredths of a percent. A unit past the last isn't listed. */
struct anodes {
    size_t unit;
    uint32_t month, metal, use, impurities[3];
};

/* Record i becomes these anodes. */
void write_consumed(struct bytes *b, size_t i, const struct anodes *anodes);

/* Fuels that a record may name: all but two have a default heat and a molar volume. */
enum fuel_sort {
    NATURAL_GAS,
    OTHER_GAS,
    NO_HEAT, /* natural gas */
    NO_VOLUME, /* a gas of class 0 */
    LIQUID,
    SOLID,
    NO_FUEL,
    FUEL_SORTS
};

/* The six fuels of a book of gas become one of each sort; the next number isn't listed. */
void write_fuel_sorts(struct bytes *b);

/* A fuel gets this molar volume, right or not, and a unit this rating. */
void write_volume(struct bytes *b, size_t fuel, uint32_t volume);
void write_rating(struct bytes *b, size_t unit, uint32_t rating);

/* What analysed gas holds, right or not: the amount in m3, heat in kJ for each, carbon in mg per kg
   and the molecular weight in g per kmol. A unit or a fuel past the last isn't listed. */
struct gas {
    size_t unit, fuel;
    uint32_t flags, month, amount, heat, carbon, weight;
};

/* Record i becomes this gas. */
void write_analysis(struct bytes *b, size_t i, const struct gas *gas);

/* One byte changed: anything, or by one, or to an end of its range. */
void damage(uint8_t *bytes, size_t length, uint64_t *row);

/* Makes record i of a mixed book one with this reason, 1 to 7. For 7 the last fuel line loses its
   default heat. */
void spoil(struct bytes *b, size_t i, unsigned reason);

#endif
