/* Makes short books longer, and tells what became of their first record. */
#include "compare_long.h"

#include "book_lines.h"
#include "compare_calls.h"
#include "model_lines.h"

#include <stdio.h>
#include <stdlib.h>
#include <string.h>

/* Behind the records stand as many lines as make any wake one of many. */
enum { SHORT = 30, OPENED_UNITS = 4, BEHIND = 32, UNITS_AT = 8, FUELS_AT = 12, REASONS = 9 };

/* First records by kind and reason, which is 0 of those that count. */
static unsigned long met[ANODES + 1][REASONS];

static size_t start_of(const struct bytes *b, size_t at)
{
    return number_at(b->book + in_trailer(b, at), 0, 4);
}

int is_short_book(const struct bytes *b)
{
    return start_of(b, UNITS_AT) <= SHORT * BOOK_LINE;
}

/* An hour or anodes that count, of the unit of this line. */
static void write_opener(uint8_t *l, uint8_t kind, const uint8_t *unit)
{
    memset(l, 0, BOOK_LINE);
    put(l, kind, 1);
    memcpy(l + 2, unit, 2);
    put(l + 6, kind == HOUR ? 4321 : 11, 2);
    put(l + 8, kind == HOUR ? 0x3f800000 : 1, 4);
    put(l + 12, kind == HOUR ? 0x3f800000 : 1, 4);
}

/* Writes them for the first units of b; how many. */
static size_t write_openers(struct bytes *longer, const struct bytes *b)
{
    const size_t units = start_of(b, UNITS_AT), fuels = start_of(b, FUELS_AT);
    size_t count = 0;
    for (size_t i = 0; i < OPENED_UNITS && units + BOOK_LINE * i < fuels; i++) {
        const uint8_t *unit = b->book + units + BOOK_LINE * i;
        write_opener(longer->book + BOOK_LINE * count++, ANODES, unit);
        if (unit[2] != 0)
            write_opener(longer->book + BOOK_LINE * count++, HOUR, unit);
    }
    return count;
}

static void append(struct bytes *longer, const uint8_t *lines, size_t length)
{
    memcpy(longer->book + longer->length, lines, length);
    longer->length += length;
}

/* The book made longer; how many lines stand before its records. */
static size_t make_longer(struct bytes *longer, const struct bytes *b)
{
    static const uint8_t nothing[BEHIND * BOOK_LINE];
    const size_t units = start_of(b, UNITS_AT), fuels = start_of(b, FUELS_AT);
    const size_t before = write_openers(longer, b), more = BOOK_LINE * (before + BEHIND);
    longer->length = BOOK_LINE * before;
    append(longer, b->book, units);
    append(longer, nothing, sizeof nothing);
    append(longer, b->book + units, b->length - units);
    longer->records = (units + more) / BOOK_LINE;
    longer->units = (fuels - units) / BOOK_LINE;
    put(longer->book + in_trailer(longer, UNITS_AT), units + more, 4);
    put(longer->book + in_trailer(longer, FUELS_AT), fuels + more, 4);
    return before;
}

/* By what the checkpoint says of the first record that was set aside. */
static void count_first(const struct bytes *b, size_t before, const struct out *end)
{
    const uint8_t kind = b->book[0];
    const uint64_t first = number_at(end->bytes, 8, 4), reason = end->bytes[12];
    if (start_of(b, UNITS_AT) == 0 || kind > ANODES || first < before || reason >= REASONS)
        return;
    met[kind][first == before ? reason : 0]++;
}

void compare_long(const struct bytes *b, const char *name)
{
    static struct bytes longer;
    const size_t before = make_longer(&longer, b);
    struct out at = compare_fresh(&longer, name, SIZE);
    if (compare_wake(&longer, name, &at, SIZE, UINT32_MAX, SIZE) != longer.records) {
        printf("%s: a wake of many went through some of %zu records\n", name, longer.records);
        exit(1);
    }
    count_first(b, before, &at);
}

/* Repeats are told elsewhere: a record is seldom one of those before it here. */
void tell_long(void)
{
    static const struct {
        uint8_t kind;
        const char *name, *reasons;
    } due[] = {{FUEL, "fuel", "0123467"},
               {HOUR, "hours", "01245"},
               {GAS, "gas", "012347"},
               {ANODES, "anodes", "0124"}};
    for (size_t i = 0; i < sizeof due / sizeof *due; i++) {
        printf("%s first in a wake of many, by reason:", due[i].name);
        for (const char *reason = due[i].reasons; *reason != 0; reason++) {
            const unsigned long count = met[due[i].kind][*reason - '0'];
            printf(" %c %lu%s", *reason, count, reason[1] == 0 ? "\n" : ",");
            if (count == 0) {
                printf("\nnone with reason %c\n", *reason);
                exit(1);
            }
        }
    }
}
