/*
 * Analysed gas of a unit without a monitor, of a wet and a dry one, and of one that isn't listed,
 * with fuels of every sort. Library and C are held against the model.
 */
#include "compare_gas.h"

#include "compare_model.h"
#include "model_gas.h"

#include <stdbool.h>
#include <stdio.h>
#include <stdlib.h>

enum { REASONS = 9, FLAGS = 256, METHODS = 5 };

static const struct recipe one = {"gas", ALL_GAS, 1, UNLISTED, NO_FUEL};

/* Records by unit, fuel and reason; and those that count by flags and method. */
static unsigned long judged[UNIT_SORTS][FUEL_SORTS][REASONS], counted[FLAGS][METHODS];

static void compare_written(struct bytes *b, const struct gas *gas, uint64_t *row)
{
    compare_modelled(b, one.name, row);
    judged[gas->unit][gas->fuel][reason_due(0)]++;
    if (reason_due(0) == 0)
        counted[b->book[1]][due_of_gas(b, 0).method]++;
}

static void compare_one(struct bytes *b, const struct gas *gas, uint64_t *row)
{
    write_analysis(b, 0, gas);
    compare_written(b, gas, row);
}

static void compare_ranges(struct bytes *b, size_t unit, size_t fuel, uint64_t *row)
{
    static const uint32_t months[] = {0, 1, 12, 13, 257, 65535};
    static const uint32_t amounts[] = {0, 1, 100000000, 100000001, UINT32_MAX};
    static const uint32_t carbons[] = {0, 1, 1000000, 1000001, 4000000, UINT32_MAX};
    static const uint32_t weights[] = {0, 1, 200000, 200001, UINT32_MAX};
    for (int i = 0; i < 6 * 5 * 6 * 5; i++) {
        const struct gas gas = {unit,    fuel, 1, months[i % 6], amounts[i / 6 % 5], 38000,
                                carbons[i / 30 % 6], weights[i / 180]};
        compare_one(b, &gas, row);
    }
}

/* The ends of the ranges of heat, and halves of 1.11 times a low one; every pattern of flags. */
static void compare_heats(struct bytes *b, size_t unit, size_t fuel, uint64_t *row)
{
    static const uint32_t heats[] = {0,      38000,  1,      49,     50,     51,        150,
                                     179950, 180000, 180001, 200000, 200001, UINT32_MAX};
    for (uint32_t flags = 0; flags < FLAGS; flags++)
        for (size_t i = 0; i < (flags < 8 ? sizeof heats / sizeof *heats : 2); i++) {
            const struct gas gas = {unit, fuel, flags, 12, 1000, heats[i], 748600, 16040};
            compare_one(b, &gas, row);
        }
}

/* Each byte that must be 0 has its lowest or its highest bit, in the last month and one past it. */
static void compare_blanks(struct bytes *b, size_t unit, size_t fuel, uint64_t *row)
{
    for (uint32_t month = LAST_MONTH; month <= LAST_MONTH + 1; month++)
        for (size_t at = 24; at < BOOK_LINE; at++)
            for (unsigned bit = 0; bit < 8; bit += 7) {
                const struct gas gas = {unit, fuel, 0, month, 1000, 0, 748600, 16040};
                write_analysis(b, 0, &gas);
                b->book[at] = (uint8_t)(1u << bit);
                compare_written(b, &gas, row);
            }
}

/* Whatever the rating is, and the heat, the carbon is measured. */
static void compare_ratings(struct bytes *b, uint64_t *row)
{
    static const uint32_t ratings[] = {1, 2500, 2501, 100000}, flags[] = {0, 1, 5};
    for (int i = 0; i < 4 * 3 * 2; i++) {
        const struct gas gas = {i / 12 == 0 ? NO_MONITOR : WET, NATURAL_GAS, flags[i / 4 % 3], 1,
                                1000, i / 4 % 3 == 0 ? 0 : 38000, 748600, 16040};
        write_rating(b, gas.unit, ratings[i % 4]);
        compare_one(b, &gas, row);
        if (due_of_gas(b, 0).method != (gas.unit == WET ? 4 : 3))
            stop_at("ratings", "the method", (size_t)i);
    }
}

void compare_gas(struct bytes *b)
{
    uint64_t row = 19;
    make_book(b, &one);
    write_unit_sorts(b);
    write_fuel_sorts(b);
    for (size_t unit = 0; unit < UNIT_SORTS; unit++)
        for (size_t fuel = 0; fuel < FUEL_SORTS; fuel++) {
            compare_ranges(b, unit, fuel, &row);
            compare_heats(b, unit, fuel, &row);
            compare_blanks(b, unit, fuel, &row);
        }
    compare_ratings(b, &row);
}

/* Whether analysed gas of such a unit and fuel can have this reason. */
static bool is_due(size_t unit, size_t fuel, unsigned reason)
{
    if (reason == 1)
        return true;
    if (unit == UNLISTED)
        return reason == 2;
    if (fuel == NO_FUEL)
        return reason == 3;
    if (fuel == NO_VOLUME || fuel == LIQUID || fuel == SOLID)
        return reason == 4;
    return reason == 0 || reason == 4 || (reason == 7 && fuel == NO_HEAT);
}

static void see_judged(unsigned long all[REASONS])
{
    for (size_t unit = 0; unit < UNIT_SORTS; unit++)
        for (size_t fuel = 0; fuel < FUEL_SORTS; fuel++)
            for (unsigned reason = 0; reason < REASONS; reason++) {
                const unsigned long met = judged[unit][fuel][reason];
                all[reason] += met;
                if ((met != 0) != is_due(unit, fuel, reason)) {
                    printf("%lu times gas of a unit of sort %zu and a fuel of sort %zu has reason "
                           "%u\n", met, unit, fuel, reason);
                    exit(1);
                }
            }
}

/* Without a heat, with one and with a low one, by the methods 3 and 4. */
static void see_counted(void)
{
    for (unsigned flags = 0; flags < FLAGS; flags++)
        for (unsigned method = 0; method < METHODS; method++)
            if ((counted[flags][method] != 0) !=
                ((flags == 0 || flags == 1 || flags == 5) && (method == 3 || method == 4))) {
                printf("%lu times gas with flags %u counts by method %u\n", counted[flags][method],
                       flags, method);
                exit(1);
            }
}

void tell_gas(void)
{
    unsigned long all[REASONS] = {0};
    see_judged(all);
    see_counted();
    printf("analysed gas at the ends of its ranges: %lu that counts; set aside with reason 1 %lu, "
           "2 %lu, 3 %lu, 4 %lu, 7 %lu\n", all[0], all[1], all[2], all[3], all[4], all[7]);
}
