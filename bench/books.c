/* Makes the books. Numbers come from a fixed row, so that two runs time the same bytes. */
#include "book_lines.h"

#include <stdbool.h>
#include <string.h>

enum { MOST_UNITS = 65 }; /* one more than a sound book has */

uint32_t draw(uint64_t *row, uint32_t limit)
{
    *row = *row * UINT64_C(6364136223846793005) + UINT64_C(1442695040888963407);
    return (uint32_t)((*row >> 32) % limit);
}

static uint8_t *line(struct bytes *b, size_t i)
{
    return b->book + BOOK_LINE * i;
}

static uint32_t hour_of(const uint8_t *l)
{
    return l[6] | (uint32_t)l[7] << 8;
}

static bool is_of_one_unit(const uint8_t *l, const uint8_t *m)
{
    return l[0] == HOUR && m[0] == HOUR && memcmp(l + 2, m + 2, 2) == 0;
}

/* By unit: the book that it last had an hour in, how many hours it has there, and the book that
   each hour was last used in. So nothing is cleared between two books. */
static struct year {
    uint32_t book, count, used_in[LAST_HOUR + 1];
} years[MOST_UNITS];
static uint32_t books;

static struct year *year_of(size_t unit)
{
    if (years[unit].book != books) {
        years[unit].book = books;
        years[unit].count = 0;
    }
    return &years[unit];
}

static bool is_used(const struct year *year, const uint8_t *l)
{
    return year->used_in[hour_of(l)] == books;
}

static void use(struct year *year, const uint8_t *l)
{
    year->count += !is_used(year, l);
    year->used_in[hour_of(l)] = books;
}

/* The hour after the last one of this unit. */
static void write_next(struct bytes *b, size_t i)
{
    size_t j = i;
    while (j > 0 && !is_of_one_unit(line(b, i), line(b, j - 1)))
        j--;
    put(line(b, i) + 6, j > 0 ? 1 + hour_of(line(b, j - 1)) % LAST_HOUR : 1, 2);
}

/* Of four repeats two are near, and two have the readings as well. */
static void write_again(struct bytes *b, size_t i, uint64_t *row)
{
    size_t j = i % 4 == 1 ? i - 1 : draw(row, (uint32_t)i);
    memcpy(line(b, i), line(b, j), i % 8 < 4 ? BOOK_LINE : 8);
}

/* Record i, an hour of this unit, gets the number that it has by the recipe. */
static void number_hour(struct bytes *b, size_t i, const struct recipe *recipe, size_t unit,
                        uint64_t *row)
{
    struct year *year = year_of(unit);
    uint8_t *l = line(b, i);
    if (recipe->mix == SITE_HOURS) {
        put(l + 6, 1 + i / recipe->units % LAST_HOUR, 2);
        return;
    }
    if (recipe->mix == RISING_HOURS)
        write_next(b, i);
    while (is_used(year, l) && year->count < LAST_HOUR)
        put(l + 6, 1 + draw(row, LAST_HOUR), 2);
    if (recipe->mix == REPEATED_HOURS && i % 2 == 1)
        write_again(b, i, row);
    else
        use(year, l);
}

/* How many records are anodes. */
static size_t count_anodes(const struct recipe *recipe, size_t records)
{
    const size_t year = LAST_MONTH * recipe->units, half = records / 2;
    if (recipe->mix == ALL_ANODES)
        return records;
    if (recipe->mix != SMELTER)
        return 0;
    return year < half ? year : half;
}

/* Any places that are left are as likely as any others to be those of the anodes left. */
static void write_records(struct bytes *b, const struct recipe *recipe)
{
    const size_t n = b->records, anodes = count_anodes(recipe, n);
    uint64_t row = 1;
    for (size_t i = 0, before = 0; i < n; i++) {
        if (before < anodes && draw(&row, (uint32_t)(n - i)) < anodes - before) {
            write_monthly(line(b, i), recipe->units, before++, &row);
            continue;
        }
        size_t unit = recipe->mix == SITE_HOURS ? i % recipe->units
                                                : draw(&row, (uint32_t)recipe->units);
        write_record(line(b, i), recipe, unit, &row);
        if (line(b, i)[0] == HOUR)
            number_hour(b, i, recipe, unit, &row);
    }
}

/* Where the unit lines and the fuel lines start. */
static void write_starts(struct bytes *b)
{
    uint8_t *at = b->book + in_trailer(b, 8);
    put(at, (uint32_t)(BOOK_LINE * b->records), 4);
    put(at + 4, (uint32_t)(BOOK_LINE * (b->records + b->units)), 4);
}

static size_t count_records(const struct recipe *recipe, size_t rest)
{
    if (recipe->records == 0)
        return FULL_BOOK / BOOK_LINE - rest;
    return recipe->records == MOST_RECORDS ? LONGEST_BOOK / BOOK_LINE - rest : recipe->records;
}

void make_book(struct bytes *b, const struct recipe *recipe)
{
    const size_t rest = recipe->units + recipe->fuels + 1;
    const size_t n = count_records(recipe, rest);
    books++;
    b->records = n;
    b->units = recipe->units;
    b->length = BOOK_LINE * (n + rest);
    memset(b->book, 0, b->length); /* and no more: most books are far shorter than the longest */
    write_records(b, recipe);
    for (size_t i = 0; i < recipe->units; i++)
        write_unit(line(b, n + i), recipe->mix, i);
    for (size_t i = 0; i < recipe->fuels; i++)
        write_fuel(line(b, n + recipe->units + i), recipe->mix, i);
    uint8_t *trailer = line(b, n + rest - 1);
    memcpy(trailer, "STCB", 4);
    put(trailer + 4, 1, 2);
    write_starts(b);
    put(trailer + YEAR_AT, 2010, 2);
}

void take_records(struct bytes *some, const struct bytes *b, size_t i, size_t n)
{
    const size_t rest = b->length - BOOK_LINE * b->records;
    some->length = BOOK_LINE * n + rest;
    some->records = n;
    some->units = b->units;
    memcpy(some->book, b->book + BOOK_LINE * i, BOOK_LINE * n);
    memcpy(some->book + BOOK_LINE * n, b->book + BOOK_LINE * b->records, rest);
    write_starts(some);
}

size_t in_trailer(const struct bytes *b, size_t at)
{
    return b->length - BOOK_LINE + at;
}

void write_heat(struct bytes *b, size_t i, size_t unit, size_t fuel, uint32_t flags, uint32_t heat)
{
    uint8_t *l = line(b, i);
    uint64_t row = i;
    memset(l, 0, BOOK_LINE);
    write_burned(l, unit, fuel, &row);
    put(l + 1, flags, 1);
    put(l + 12, heat, 4);
    put(l + 16, flags & 2 ? draw(&row, 1000001) : 0, 4);
}

void write_flags(struct bytes *b, size_t unit, uint32_t flags)
{
    put(line(b, b->records + unit) + 2, flags, 1);
}

void write_unit_sorts(struct bytes *b)
{
    static const uint8_t flags[UNLISTED] = {[NO_MONITOR] = 0, [WET] = 1, [DRY] = 3};
    for (size_t unit = 0; unit < UNLISTED; unit++)
        write_flags(b, unit, flags[unit]);
}

void write_readings(struct bytes *b, size_t i, const struct hour *hour)
{
    uint8_t *l = line(b, i);
    memset(l, 0, BOOK_LINE);
    put(l, HOUR, 1);
    put(l + 2, number_of(hour->unit), 2);
    put(l + 6, hour->number, 2);
    put(l + 8, hour->percent_bits, 4);
    put(l + 12, hour->flow_bits, 4);
    put(l + 16, hour->moisture, 2);
}

void write_consumed(struct bytes *b, size_t i, const struct anodes *anodes)
{
    memset(line(b, i), 0, BOOK_LINE);
    write_anodes(line(b, i), anodes);
}

static uint8_t *fuel_line(struct bytes *b, size_t fuel)
{
    return line(b, b->records + b->units + fuel);
}

void write_fuel_sorts(struct bytes *b)
{
    static const uint8_t kinds[NO_FUEL] = {3, 3, 3, 3, 2, 1}, classes[NO_FUEL] = {1, 0, 1, 0, 2, 3};
    for (size_t fuel = 0; fuel < NO_FUEL; fuel++) {
        put(fuel_line(b, fuel) + 2, kinds[fuel], 1);
        put(fuel_line(b, fuel) + 3, classes[fuel], 1);
    }
    put(fuel_line(b, NO_HEAT) + 4, 0, 4);
    write_volume(b, NO_VOLUME, 0);
}

void write_volume(struct bytes *b, size_t fuel, uint32_t volume)
{
    put(fuel_line(b, fuel) + VOLUME_AT, volume, 4);
}

void write_rating(struct bytes *b, size_t unit, uint32_t rating)
{
    put(line(b, b->records + unit) + 4, rating, 4);
}

void write_analysis(struct bytes *b, size_t i, const struct gas *gas)
{
    memset(line(b, i), 0, BOOK_LINE);
    write_gas(line(b, i), gas);
}

void damage(uint8_t *bytes, size_t length, uint64_t *row)
{
    uint8_t *at = bytes + draw(row, (uint32_t)length);
    const uint8_t choices[6] = {(uint8_t)draw(row, 256), (uint8_t)(*at + 1), (uint8_t)(*at - 1),
                                0, 1, 255};
    *at = choices[draw(row, 6)];
}

/* No unit has number 1. */
void spoil(struct bytes *b, size_t i, unsigned reason)
{
    uint8_t *l = line(b, i);
    uint64_t row = i;
    memset(l, 0, BOOK_LINE);
    if (reason == 5) {
        write_hour(l, 1, &row);
        return;
    }
    write_burned(l, 1, 0, &row);
    if (reason == 1)
        put(l + BOOK_LINE - 1, 1, 1);
    else if (reason == 2)
        put(l + 2, 1, 2);
    else if (reason == 3)
        put(l + 4, 1, 2);
    else if (reason == 4)
        put(l + 6, 13, 2);
    else if (reason == 6) { /* a big unit with nothing measured */
        put(l + 1, 0, 1);
        put(l + 2, number_of(2), 2);
        put(l + 12, 0, 8);
    } else if (reason == 7) { /* carbon measured, heat not, and the fuel's default taken away */
        put(l + 1, 2, 1);
        put(l + 12, 0, 4);
        put(line(b, b->length / BOOK_LINE - 2) + 4, 0, 4);
        memcpy(l + 4, line(b, b->length / BOOK_LINE - 2), 2);
    }
}
