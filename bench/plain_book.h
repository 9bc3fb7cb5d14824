/*
 * The book in plain C. Opening it checks the unit and fuel lines where they stand and decodes none:
 * a call that judges no record has no use for them. Bytes are read as the host's words, which on
 * x86-64 are little-endian as the book's are.
 */
#ifndef PLAIN_BOOK_H
#define PLAIN_BOOK_H

#include "books.h"

#include <stdbool.h>
#include <string.h>

enum { LINE = BOOK_LINE, SETS = WARMING_SETS, MOST_LINES = 64, SMALL_RATING = 2500 };

/* Of a fuel line: the kind of a gas, and the classes that rules name. */
enum { A_GAS = 3, NATURAL = 1, DISTILLATE = 2, BIOMASS_CLASS = 3 };

struct book {
    const uint8_t *records, *unit_lines, *fuel_lines;
    uint32_t n, length, year, set, units, fuels; /* set: of warming values, below SETS */
};

#define ALWAYS_INLINE static inline __attribute__((always_inline))
#define NOINLINE __attribute__((noinline))
#define RARELY(x) __builtin_expect(!!(x), 0)

static inline uint32_t read16(const uint8_t *p)
{
    uint16_t x;
    memcpy(&x, p, sizeof x);
    return x;
}

static inline uint32_t read32(const uint8_t *p)
{
    uint32_t x;
    memcpy(&x, p, sizeof x);
    return x;
}

static inline uint64_t read64(const uint8_t *p)
{
    uint64_t x;
    memcpy(&x, p, sizeof x);
    return x;
}

enum { PIECE = 64 };

/* By pieces, of which there is a whole number: to clear more at once the compiler takes an
   instruction that needs 10 ns to begin. */
static inline void clear(void *at, size_t length)
{
    for (size_t i = 0; i < length; i += PIECE)
        memset((char *)at + i, 0, PIECE);
}

static inline bool in_range(uint32_t x, uint32_t least, uint32_t most)
{
    return x - least <= most - least;
}

/* The line that has number x among n lines whose numbers rise, NULL if none has. No branch depends
   on the numbers. */
static inline const uint8_t *find_line(const uint8_t *lines, uint32_t n, uint32_t x)
{
    if (n == 0)
        return NULL;
    for (uint32_t width = n; width > 1;) {
        const uint32_t half = width / 2;
        const uint8_t *middle = lines + half * LINE;
        lines = read16(middle) <= x ? middle : lines;
        width -= half;
    }
    return read16(lines) == x ? lines : NULL;
}

/* A test is a branch of its own: foreseen, it takes half the time of the same test added to others
   without one. */
static inline bool are_units_right(const uint8_t *l, uint32_t n)
{
    uint32_t before = 0;
    for (const uint8_t *end = l + n * LINE; l < end; l += LINE) {
        const uint32_t number = read16(l);
        if (number <= before)
            return false;
        before = number;
        const uint32_t flags = read16(l + 2);
        if (flags > 3 || flags == 2)
            return false;
        const uint32_t rating = read32(l + 4);
        if (!in_range(rating, 1, 100000))
            return false;
        if ((read64(l + 8) | read64(l + 16) | read64(l + 24)) != 0)
            return false;
    }
    return true;
}

/* What a fuel is by kind and class; MADE_UP where there is none. */
enum {
    OTHER_FUEL,
    NATURAL_GAS_FUEL,
    DISTILLATE_FUEL,
    BIOMASS_FUEL,
    OTHER_GAS_FUEL,
    MADE_UP
};

/* By kind + 256 * class, as they stand in a fuel line; one more than the fuel is, and 0 where the
   two don't go together. */
static const uint8_t sorts_of_fuel[1024] = {
    [0x001] = 1 + OTHER_FUEL,       [0x002] = 1 + OTHER_FUEL,      [0x003] = 1 + OTHER_GAS_FUEL,
    [0x103] = 1 + NATURAL_GAS_FUEL, [0x202] = 1 + DISTILLATE_FUEL, [0x301] = 1 + BIOMASS_FUEL};

static inline bool are_fuels_right(const uint8_t *l, uint32_t n)
{
    uint32_t before = 0;
    for (const uint8_t *end = l + n * LINE; l < end; l += LINE) {
        const uint32_t number = read16(l);
        if (number <= before)
            return false;
        before = number;
        const uint32_t sort = read16(l + 2);
        if (sort >= sizeof sorts_of_fuel || sorts_of_fuel[sort] == 0)
            return false;
        if (read32(l + 4) > 200000 || !in_range(read32(l + 8), 1, 200000) ||
            read32(l + 12) > 200000 || read32(l + 16) > 200000)
            return false;
        const uint32_t volume = read32(l + 20);
        if (volume > 27000 || in_range(volume, 1, 19999) || read64(l + 24) != 0)
            return false;
    }
    return true;
}

/* Reads the trailer into k; whether it keeps every rule. */
static bool decode_trailer(struct book *k, const uint8_t *bytes, uint32_t length)
{
    const uint8_t *t = bytes + length - LINE;
    uint32_t units = read32(t + 8), fuels = read32(t + 12);
    /* Signature, version and two blank bytes are one word: "STCB" 1 0 0 0. */
    if (read64(t) != UINT64_C(0x0000000142435453))
        return false;
    if ((units | fuels) % LINE != 0 || units > fuels || fuels > length - LINE)
        return false;
    k->records = bytes;
    k->unit_lines = bytes + units;
    k->fuel_lines = bytes + fuels;
    k->length = length;
    k->n = units / LINE;
    k->units = (fuels - units) / LINE;
    k->fuels = (length - LINE - fuels) / LINE;
    k->year = read32(t + 16); /* with the two blank bytes behind it */
    k->set = read32(t + 20);  /* with the three behind it */
    return in_range(k->year, 2000, 2099) && k->set < SETS && read64(t + 24) == 0;
}

static unsigned open_book(struct book *k, const uint8_t *bytes, size_t length)
{
    if (length % LINE != 0 || length < LINE || length > LONGEST_BOOK)
        return 20;
    if (!decode_trailer(k, bytes, (uint32_t)length))
        return 21;
    if (k->units > MOST_LINES || !are_units_right(k->unit_lines, k->units))
        return 22;
    if (k->fuels > MOST_LINES || !are_fuels_right(k->fuel_lines, k->fuels))
        return 23;
    return 0;
}

#endif
