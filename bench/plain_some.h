/*
 * Hours and anodes that stand before, in plain C, where some ask for it: they are held against
 * those lines before whose hash one of them has.
 */
#ifndef PLAIN_SOME_H
#define PLAIN_SOME_H

#include "plain_before.h"

enum { SOME = 16 }; /* of more it is sooner to mark the hours and months */

/* Below 2^bits. Two keys may share one, which costs a look-up. */
static inline uint64_t hash(const uint8_t *l, unsigned bits)
{
    return key_of(l) * UINT64_C(0x9e3779b97f4a7c15) >> (64 - bits);
}

/* A bit for each of the records from l on that has the key of this line. */
static NOINLINE uint32_t find_same(const uint8_t *line, const uint8_t *l, uint32_t count)
{
    uint32_t same = 0;
    for (uint32_t i = 0; i < count; i++)
        same |= (uint32_t)has_key(l + i * LINE, key_of(line)) << i;
    return same;
}

enum { SHORT_BITS = 11, LONG_BITS = 13, LONG = 2048 }; /* of a hash, and lines before */

/* The same of all lines before. */
ALWAYS_INLINE uint32_t find_same_before(const uint8_t *from, const uint8_t *l, uint32_t count,
                                        unsigned bits)
{
    bool asked[1 << LONG_BITS];
    uint32_t same = 0;
    clear(asked, (size_t)1 << bits);
    for (uint32_t i = 0; i < count; i++)
        asked[hash(l + i * LINE, bits)] |= can_repeat(l[i * LINE]);
    for (; l - from >= 2 * LINE; from += 2 * LINE) {
        if (RARELY(asked[hash(from, bits)]))
            same |= find_same(from, l, count);
        if (RARELY(asked[hash(from + LINE, bits)]))
            same |= find_same(from + LINE, l, count);
    }
    return from < l ? same | find_same(from, l, count) : same;
}

/* A bit for each of the records from l on, at most SOME, whose key stands before it. */
static NOINLINE uint32_t find_repeated(const uint8_t *from, const uint8_t *l, uint32_t count)
{
    uint32_t repeated = l - from < LONG * LINE ? find_same_before(from, l, count, SHORT_BITS)
                                               : find_same_before(from, l, count, LONG_BITS);
    for (uint32_t i = 0; i + 1 < count; i++)
        repeated |= find_same(l + i * LINE, l + (i + 1) * LINE, count - i - 1) << (i + 1);
    return repeated;
}

#endif
