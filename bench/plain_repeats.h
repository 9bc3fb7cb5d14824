/*
 * Hours and anodes that stand before, in plain C, in a wake of many: whether an earlier record has
 * the kind, the unit and the number of this one, which is its hour or its month. The wake decides
 * how to know it at its first such record that would count, so that one of fuel alone pays nothing.
 *
 * Where at most two ask, each is held against every line before. For more the lines are hashed, and
 * those alone are marked that some record of the wake may repeat: one pass over all lines, whatever
 * the book.
 */
#ifndef PLAIN_REPEATS_H
#define PLAIN_REPEATS_H

#include "plain_many.h"
#include "plain_some.h"

/* Bits of a hash, while there is a byte for each and at most. With 64 hashes for each record of the
   wake, and while there is room 4 for each line before, hardly a line is marked in vain; the most
   are 64 KB. */
enum { LEAST_BYTES = 10, MOST_BYTES = 13, MOST_BITS = 19, HASHES_EACH = 64, HASHES_BEFORE = 4 };

/* Marks an hour of a monitored unit; whether it was marked. */
static inline bool mark_hour(struct many *m, struct unit *u, uint32_t hour)
{
    uint64_t *word = u->row + hour / 64, bit = UINT64_C(1) << hour % 64;
    if (u->moistures == 0)
        begin_row(m, u);
    const bool was_marked = (*word & bit) != 0;
    *word |= bit;
    return was_marked;
}

static inline bool mark_month(struct unit *u, uint32_t month)
{
    const bool was_marked = u->months >> month & 1;
    u->months |= (uint16_t)(1u << month);
    return was_marked;
}

static inline struct unit *find_unit(struct many *m, uint32_t number)
{
    struct unit *u = unit_hinted(m, number);
    if (u->number == number)
        return u;
    const struct book *k = m->book;
    const uint8_t *line = find_line(k->unit_lines, k->units, number);
    return line == NULL ? NULL : &m->unit[(line - k->unit_lines) / LINE];
}

/* Marks the record at l, whatever becomes of it, unless none that would count can repeat it;
   whether it was marked. */
ALWAYS_INLINE bool mark(struct many *m, const uint8_t *l)
{
    const uint32_t number = read16(l + 6);
    struct unit *u = find_unit(m, read16(l + 2));
    if (u == NULL || !in_range(number, 1, l[0] == HOUR ? LAST_HOUR : LAST_MONTH))
        return false;
    if (l[0] == ANODES)
        return mark_month(u, number);
    return u->rules == rules_of(MONITORED_UNIT) && mark_hour(m, u, number);
}

ALWAYS_INLINE void mark_line(struct many *m, const uint8_t *l)
{
    if (can_repeat(l[0]))
        mark(m, l);
}

/* The hashes of what a wake asks for: a byte for each where these are few, which is found sooner
   than a bit, but of more hashes has no room beside the lines. */
struct asked {
    unsigned bits;
    union {
        bool byte[1 << MOST_BYTES];
        uint64_t word[1 << (MOST_BITS - 6)];
    };
};

ALWAYS_INLINE bool is_asked(const struct asked *asked, const uint8_t *l, bool by_bytes)
{
    const uint64_t i = hash(l, asked->bits);
    return by_bytes ? asked->byte[i] : asked->word[i / 64] >> i % 64 & 1;
}

ALWAYS_INLINE void ask(struct asked *asked, const uint8_t *l, bool by_bytes)
{
    const uint64_t i = hash(l, asked->bits);
    if (by_bytes)
        asked->byte[i] |= can_repeat(l[0]);
    else
        asked->word[i / 64] |= (uint64_t)can_repeat(l[0]) << i % 64;
}

/* Marks the line at l, and those behind it that are asked for too; the first that isn't. */
ALWAYS_INLINE const uint8_t *mark_run(struct many *m, const struct asked *asked, const uint8_t *l,
                                      const uint8_t *end, bool by_bytes)
{
    do {
        mark_line(m, l);
        l += LINE;
    } while (l < end && is_asked(asked, l, by_bytes));
    return l;
}

static NOINLINE const uint8_t *
mark_run_of_few(struct many *m, const struct asked *asked, const uint8_t *l, const uint8_t *end)
{
    return mark_run(m, asked, l, end, true);
}

static NOINLINE const uint8_t *
mark_run_of_more(struct many *m, const struct asked *asked, const uint8_t *l, const uint8_t *end)
{
    return mark_run(m, asked, l, end, false);
}

/* The first line from l on that is asked for, or a line of the last two before the end. */
ALWAYS_INLINE const uint8_t *skip(const struct asked *asked, const uint8_t *l, const uint8_t *end,
                                  bool by_bytes)
{
    if (end - l < 2 * LINE)
        return l;
    const uint8_t *last = end - 2 * LINE;
    for (; l <= last; l += 2 * LINE) {
        if (RARELY(is_asked(asked, l, by_bytes)))
            return l;
        if (RARELY(is_asked(asked, l + LINE, by_bytes)))
            return l + LINE;
    }
    return l;
}

/* Marks the records before l that may have the key of one of the wake's. */
static NOINLINE void mark_for_few(struct many *m, const uint8_t *l, unsigned bits)
{
    struct asked asked;
    asked.bits = bits;
    clear(asked.byte, (size_t)1 << bits);
    for (const uint8_t *asking = l; asking < m->end; asking += LINE)
        ask(&asked, asking, true);
    for (const uint8_t *from = m->book->records; (from = skip(&asked, from, l, true)) < l;)
        from = mark_run_of_few(m, &asked, from, l);
}

static NOINLINE void mark_for_more(struct many *m, const uint8_t *l, unsigned bits)
{
    struct asked asked;
    asked.bits = bits;
    clear(asked.word, (size_t)1 << (bits - 3));
    for (const uint8_t *asking = l; asking < m->end; asking += LINE)
        ask(&asked, asking, false);
    for (const uint8_t *from = m->book->records; (from = skip(&asked, from, l, false)) < l;)
        from = mark_run_of_more(m, &asked, from, l);
}

/* Marks the records before l that the wake asks for. Where the lines of the wake are more than
   those before, it is sooner to mark all than to see what is asked for. */
static void mark_before(struct many *m, const uint8_t *l)
{
    const uint8_t *from = m->book->records;
    const ptrdiff_t before = (l - from) / LINE, asking = (m->end - l) / LINE;
    unsigned bits = LEAST_BYTES;
    if (before < asking) {
        for (; from < l; from += LINE)
            mark_line(m, from);
        return;
    }
    while (bits < MOST_BYTES && HASHES_BEFORE * before > 1 << bits)
        bits++;
    while (bits < MOST_BITS && HASHES_EACH * asking > 1 << bits)
        bits++;
    if (bits <= MOST_BYTES)
        mark_for_few(m, l, bits);
    else
        mark_for_more(m, l, bits);
}

static void decide(struct many *m, const uint8_t *l)
{
    m->way = has_few(l, m->end) ? LINE_BY_LINE : BY_TABLE;
    if (m->way == LINE_BY_LINE)
        return;
    for (uint32_t i = 0; i < m->book->units; i++)
        m->unit[i].months = 0;
    mark_before(m, l);
}

/* Whether the hour or the anodes at l, which would count, stand before. */
static bool stands_before(struct many *m, const uint8_t *l)
{
    if (m->way == UNDECIDED)
        decide(m, l);
    return m->way == BY_TABLE ? mark(m, l) : is_among(m->book->records, l);
}

#endif
