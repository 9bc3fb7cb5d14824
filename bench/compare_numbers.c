/* Numbers the units and fuels of books anew, and compares library and C on them. */
#include "compare_numbers.h"

#include "book_lines.h"
#include "compare_calls.h"
#include "compare_model.h"
#include "model_lines.h"

#include <stdio.h>
#include <stdlib.h>
#include <string.h>

enum { RECORDS = 60, MOST_BUDGET = 24, MOST_LINES = 64 };

/* The number of line i of n. They rise, and are from 1 to 65,535. */
typedef uint32_t numbering(size_t i, size_t n);

static uint32_t number_densely(size_t i, size_t n)
{
    (void)n;
    return (uint32_t)(1 + i);
}

static uint32_t number_last(size_t i, size_t n)
{
    return (uint32_t)(65536 - n + i);
}

static uint32_t share_last_byte(size_t i, size_t n)
{
    (void)n;
    return (uint32_t)(7 + 256 * i);
}

static uint32_t share_ten_bits(size_t i, size_t n)
{
    (void)n;
    return (uint32_t)(1023 + 1024 * i);
}

static uint32_t share_by_pairs(size_t i, size_t n)
{
    const size_t half = (n + 1) / 2;
    return (uint32_t)(1 + i % half + 1024 * (i / half));
}

/* Up to 63, 127 and so on, and one more. */
static uint32_t number_to_mask(size_t i, size_t n)
{
    return (uint32_t)(i + 1 == n ? 1023 : 1 + 15 * i);
}

static uint32_t number_past_mask(size_t i, size_t n)
{
    return (uint32_t)(i + 1 == n ? 1024 : 1 + i);
}

static const struct scheme {
    const char *name;
    numbering *number;
} schemes[] = {{"dense", number_densely},        {"the last", number_last},
               {"one last byte", share_last_byte}, {"ten bits", share_ten_bits},
               {"by pairs", share_by_pairs},      {"to 1023", number_to_mask},
               {"past 1023", number_past_mask}};

enum { SCHEMES = sizeof schemes / sizeof *schemes };

/* Of a fresh book the numbers are as book_lines gives them. */
static size_t index_of(uint32_t number)
{
    size_t i = 0;
    while (number_of(i) != number)
        i++;
    return i;
}

/* By numbering: records whose unit and fuel are listed, and records whose unit or fuel isn't, most
   of which share their last bits with one that is. */
static unsigned long listed[SCHEMES], mistaken[SCHEMES];

/* The number of this unit or fuel, and of every seventh one beside it that isn't listed. */
static void renumber(uint8_t *at, const struct scheme *scheme, size_t n, uint64_t *row)
{
    const uint32_t number = scheme->number(index_of((uint32_t)number_at(at, 0, 2)), n);
    const uint32_t others[4] = {number + 256, number + 1024, number ^ 0x8000, 0};
    put(at, draw(row, 7) == 0 ? others[draw(row, 4)] : number, 2);
}

static void count_record(const struct bytes *b, const uint8_t *l, size_t scheme)
{
    const int has_fuel = l[0] == FUEL || l[0] == GAS;
    if (unit_line_of(b, l) != NULL && (!has_fuel || fuel_line_of(b, l) != NULL))
        listed[scheme]++;
    else
        mistaken[scheme]++;
}

static void make_numbered(struct bytes *b, const struct recipe *recipe, size_t scheme,
                          uint64_t *row)
{
    const size_t units = recipe->units, fuels = recipe->fuels;
    make_book(b, recipe);
    for (size_t i = 0; i < b->records; i++) {
        uint8_t *l = b->book + BOOK_LINE * i;
        renumber(l + 2, &schemes[scheme], units, row);
        if (l[0] == FUEL || l[0] == GAS)
            renumber(l + 4, &schemes[scheme], fuels, row);
    }
    for (size_t i = 0; i < units; i++)
        put(b->book + BOOK_LINE * (b->records + i), schemes[scheme].number(i, units), 2);
    for (size_t i = 0; i < fuels; i++)
        put(b->book + BOOK_LINE * (b->records + units + i), schemes[scheme].number(i, fuels), 2);
    for (size_t i = 0; i < b->records; i++)
        count_record(b, b->book + BOOK_LINE * i, scheme);
}

/* Through the book by wakes of each budget, of which the C takes the greater ones otherwise. */
static void compare_small_budgets(const struct bytes *b, const char *name)
{
    for (uint32_t budget = 1; budget <= MOST_BUDGET; budget++) {
        struct out at = compare_fresh(b, name, SIZE);
        while (compare_wake(b, name, &at, SIZE, budget, SIZE) != 0)
            ;
        compare_report(b, name, &at, SIZE);
    }
}

/* As many units and fuels as there can be, and about the fewest. */
static void compare_counts(struct bytes *b, size_t scheme, enum mix mix, uint64_t *row)
{
    static const size_t counts[] = {1, 2, 3, 8, 31, 63, MOST_LINES};
    for (size_t i = 0; i < sizeof counts / sizeof *counts; i++) {
        const struct recipe recipe = {schemes[scheme].name, mix, RECORDS, counts[i],
                                      counts[(i + scheme) % (sizeof counts / sizeof *counts)]};
        make_numbered(b, &recipe, scheme, row);
        compare_small_budgets(b, recipe.name);
        compare_modelled(b, recipe.name, row);
    }
}

/* Records of every kind in books without units or fuels: none counts but what needs no fuel. */
static void compare_none(struct bytes *b, uint64_t *row)
{
    static const enum mix mixes[] = {SMELTER, REFINERY, ALL_HOURS};
    for (size_t i = 0; i < sizeof mixes / sizeof *mixes; i++)
        for (size_t lines = 0; lines < 3; lines++) {
            const struct recipe recipe = {"no lines", mixes[i], RECORDS, 4, 4};
            make_book(b, &recipe);
            const size_t units = lines == 1 ? 4 : 0, fuels = lines == 2 ? 4 : 0;
            const size_t first = b->records + (units == 0 ? 4 : 0);
            uint8_t *end = b->book + BOOK_LINE * b->records, trailer[BOOK_LINE];
            memcpy(trailer, b->book + in_trailer(b, 0), BOOK_LINE);
            memmove(end, b->book + BOOK_LINE * first, BOOK_LINE * (units + fuels));
            memcpy(end + BOOK_LINE * (units + fuels), trailer, BOOK_LINE);
            b->units = units;
            b->length = BOOK_LINE * (b->records + units + fuels + 1);
            put(b->book + in_trailer(b, 12), BOOK_LINE * (b->records + units), 4);
            put(b->book + 2, 0, 2); /* and a number that no line has */
            put(b->book + 4, 0, 2);
            compare_small_budgets(b, recipe.name);
            compare_modelled(b, recipe.name, row);
        }
}

void compare_numbers(struct bytes *b)
{
    static const enum mix mixes[] = {MIXED,     LOW_HEATS, DRY_HOURS, REPEATED_HOURS,
                                     ALL_ANODES, SMELTER,   ALL_GAS,   REFINERY};
    uint64_t row = 23;
    for (size_t scheme = 0; scheme < SCHEMES; scheme++)
        for (size_t i = 0; i < sizeof mixes / sizeof *mixes; i++)
            compare_counts(b, scheme, mixes[i], &row);
    compare_none(b, &row);
}

void tell_numbers(void)
{
    printf("records by the numbering of units and fuels, listed and not:");
    for (size_t i = 0; i < SCHEMES; i++) {
        printf(" %s %lu %lu%s", schemes[i].name, listed[i], mistaken[i],
               i + 1 == SCHEMES ? "\n" : ";");
        if (listed[i] == 0 || mistaken[i] == 0) {
            printf("\nnone is, or none is not\n");
            exit(1);
        }
    }
}
