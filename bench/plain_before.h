/*
 * Hours and anodes that stand before, in plain C, where few ask for it: each is held against every
 * line before it.
 */
#ifndef PLAIN_BEFORE_H
#define PLAIN_BEFORE_H

#include "plain_book.h"

enum { FEW = 2 }; /* for more it is sooner to hash the lines once */

static inline bool can_repeat(uint8_t kind)
{
    return kind == HOUR || kind == ANODES;
}

/* Kind, unit and number. */
static inline uint64_t key_of(const uint8_t *l)
{
    return read64(l) & UINT64_C(0xffff0000ffff00ff);
}

static inline bool has_key(const uint8_t *l, uint64_t key)
{
    return key_of(l) == key;
}

/* Whether the hour or the anodes at l stand before, from this line on. By four lines at a time: a
   loop over single ones takes a third longer. */
static inline bool is_among(const uint8_t *from, const uint8_t *l)
{
    const uint64_t key = key_of(l);
    for (; l - from >= 4 * LINE; from += 4 * LINE)
        if (RARELY(has_key(from, key)) || RARELY(has_key(from + LINE, key)) ||
            RARELY(has_key(from + 2 * LINE, key)) || RARELY(has_key(from + 3 * LINE, key)))
            return true;
    for (; from < l; from += LINE)
        if (has_key(from, key))
            return true;
    return false;
}

/* Whether at most FEW of these records can repeat others. */
static inline bool has_few(const uint8_t *l, const uint8_t *end)
{
    int asking = 0;
    for (; l < end && asking <= FEW; l += LINE)
        asking += can_repeat(l[0]);
    return asking <= FEW;
}

#endif
