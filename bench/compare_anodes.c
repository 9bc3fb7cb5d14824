/*
 * Anodes of a unit without a monitor, of a wet and a dry one, and of one that isn't listed. Library
 * and C are held against the model, and the model against sums worked by hand.
 */
#include "compare_anodes.h"

#include "compare_model.h"
#include "model_anodes.h"

#include <stdbool.h>
#include <stdio.h>
#include <stdlib.h>

enum { DRAWN = 1000, REASONS = 9 };

static const struct recipe one = {"anodes", ALL_ANODES, 1, UNLISTED, 0};
static const struct recipe year = {"drawn anodes", ALL_ANODES, LAST_MONTH, UNLISTED, 0};

/* Single anodes by unit and reason; those that count and are nothing but impurities; and CO2 of
   drawn ones by its tenths. */
static unsigned long judged[UNIT_SORTS][REASONS], impure, tenths[10];

static void compare_one(struct bytes *b, const struct anodes *anodes, uint64_t *row)
{
    compare_modelled(b, one.name, row);
    judged[anodes->unit][reason_due(0)]++;
}

static void compare_sums(struct bytes *b, uint64_t *row)
{
    static const struct {
        uint32_t metal, use, impurities[3];
        uint64_t ug;
    } sums[] = {
        {1, 1, {0, 0, 0}, 3664000},
        {1, 1, {9999, 0, 0}, 366},     /* 366.4 */
        {1, 1, {0, 9998, 0}, 733},     /* 732.8 */
        {1, 1, {0, 0, 9997}, 1099},    /* 1,099.2 */
        {1, 1, {3332, 3332, 3332}, 1466}, /* 1,465.6 */
        {1, 1, {9995, 0, 0}, 1832},
        {123457, 419, {205, 33, 18}, 184681112772173}, /* .. 172.8 */
        {54321000, 415, {162, 35, 40}, 80640759107688000},
        {100000000, 1000, {0, 0, 0}, 366400000000000000},
        {100000000, 1000, {5000, 3000, 2000}, 0},
    };
    for (size_t i = 0; i < sizeof sums / sizeof *sums; i++) {
        const struct anodes anodes = {
            WET, 1, sums[i].metal, sums[i].use,
            {sums[i].impurities[0], sums[i].impurities[1], sums[i].impurities[2]}};
        write_consumed(b, 0, &anodes);
        compare_one(b, &anodes, row);
        if (reason_due(0) != 0 || co2_of_anodes(b->book).ug != sums[i].ug)
            stop_at("sums by hand", "the CO2", i);
    }
}

static void compare_ranges(struct bytes *b, size_t unit, uint64_t *row)
{
    static const uint32_t months[] = {0, 1, 12, 13, 257, 65535};
    static const uint32_t metals[] = {0, 1, 99999999, 100000000, 100000001, UINT32_MAX};
    static const uint32_t uses[] = {0, 1, 999, 1000, 1001, UINT32_MAX};
    for (int i = 0; i < 6 * 6 * 6; i++) {
        const struct anodes anodes = {
            unit, months[i % 6], metals[i / 6 % 6], uses[i / 36], {205, 33, 18}};
        write_consumed(b, 0, &anodes);
        compare_one(b, &anodes, row);
    }
}

/* Together 10,000 in many ways, and one more; also 65,536, which 16 bits take for nothing. */
static void compare_impurities(struct bytes *b, size_t unit, uint64_t *row)
{
    static const uint32_t parts[] = {0, 1, 3333, 3334, 5000, 9999, 10000, 10001, 65535};
    enum { PARTS = sizeof parts / sizeof *parts };
    for (size_t i = 0; i < PARTS * PARTS * PARTS; i++) {
        const struct anodes anodes = {
            unit, 12, 99999999, 999,
            {parts[i % PARTS], parts[i / PARTS % PARTS], parts[i / PARTS / PARTS]}};
        write_consumed(b, 0, &anodes);
        compare_one(b, &anodes, row);
        impure += reason_due(0) == 0 && co2_of_anodes(b->book).ug == 0;
    }
}

/* Each byte that must be 0 has its lowest or its highest bit, in the last month and one past it. */
static void compare_blanks(struct bytes *b, size_t unit, uint64_t *row)
{
    static const uint8_t places[] = {1, 4, 5, 22, 23, 24, 25, 26, 27, 28, 29, 30, 31};
    for (uint32_t month = LAST_MONTH; month <= LAST_MONTH + 1; month++)
        for (size_t i = 0; i < sizeof places; i++)
            for (unsigned bit = 0; bit < 8; bit += 7) {
                const struct anodes anodes = {unit, month, 54321000, 415, {162, 35, 40}};
                write_consumed(b, 0, &anodes);
                b->book[places[i]] = (uint8_t)(1u << bit);
                compare_one(b, &anodes, row);
            }
}

static void draw_anodes(struct bytes *b, size_t i, size_t unit, uint64_t *row)
{
    struct anodes anodes = {.unit = unit, .month = (uint32_t)i + 1};
    uint32_t left = 10000;
    anodes.metal = draw(row, i % 2 == 0 ? 100 : 100000001);
    anodes.use = draw(row, 1001);
    for (int j = 0; j < 3; j++) {
        anodes.impurities[j] = draw(row, left + 1);
        left -= anodes.impurities[j];
    }
    write_consumed(b, i, &anodes);
    tenths[co2_of_anodes(b->book + BOOK_LINE * i).tenths]++;
}

void compare_anodes(struct bytes *b)
{
    uint64_t row = 17;
    make_book(b, &one);
    write_unit_sorts(b);
    compare_sums(b, &row);
    for (size_t unit = 0; unit < UNIT_SORTS; unit++) {
        compare_ranges(b, unit, &row);
        compare_impurities(b, unit, &row);
        compare_blanks(b, unit, &row);
    }
    make_book(b, &year);
    write_unit_sorts(b);
    for (size_t i = 0; i < DRAWN; i++) {
        for (size_t j = 0; j < LAST_MONTH; j++)
            draw_anodes(b, j, i % UNLISTED, &row);
        compare_modelled(b, year.name, &row);
    }
}

/* Whether anodes of such a unit can have this reason. */
static bool is_due(size_t unit, unsigned reason)
{
    return reason == 1 || (unit == UNLISTED ? reason == 2 : reason == 0 || reason == 4);
}

void tell_anodes(void)
{
    unsigned long all[REASONS] = {0};
    for (size_t unit = 0; unit < UNIT_SORTS; unit++)
        for (unsigned reason = 0; reason < REASONS; reason++) {
            all[reason] += judged[unit][reason];
            if ((judged[unit][reason] != 0) != is_due(unit, reason)) {
                printf("%lu anodes of a unit of sort %zu have reason %u\n", judged[unit][reason],
                       unit, reason);
                exit(1);
            }
        }
    const unsigned long down = tenths[2] + tenths[4], up = tenths[6] + tenths[8];
    if (impure == 0 || tenths[0] == 0 || down == 0 || up == 0) {
        printf("%lu anodes are nothing but impurities; CO2 is exact %lu times, rounded down %lu, "
               "up %lu\n", impure, tenths[0], down, up);
        exit(1);
    }
    printf("anodes at the ends of their ranges: %lu that count, %lu of them nothing but "
           "impurities; set aside with reason 1 %lu, 2 %lu, 4 %lu\n"
           "CO2 of drawn anodes: %lu times exact, %lu rounded down, %lu up\n",
           all[0], impure, all[1], all[2], all[4], tenths[0], down, up);
}
