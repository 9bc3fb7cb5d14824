/*
 * CO2 of analysed gas by molar volumes of every sort. Library and C are held against the model, and
 * the model against sums worked by hand.
 */
#include "compare_gas_co2.h"

#include "compare_model.h"
#include "model_gas.h"

#include <stdbool.h>
#include <stdio.h>
#include <stdlib.h>

enum { DRAWN = 2000, DRAWN_NEAR = 400, RECORDS = 12, FUELS = 6 };

static const struct recipe one = {"gas", ALL_GAS, 1, UNLISTED, 1};
static const struct recipe several = {"drawn gas", ALL_GAS, RECORDS, UNLISTED, FUELS};

/* CO2 of drawn gas by whether the molar volume is odd, the product is wide, and how it is rounded;
   and, where next to half of the volume is left, by whether the volume is odd, more than half is
   left, and the quotient is odd. A wide product has 21 digits or more, which 64 bits don't hold. */
static unsigned long rounded[2][2][ROUNDINGS], near[2][2][2];

static void compare_sums(struct bytes *b, uint64_t *row)
{
    static const struct {
        uint32_t amount, carbon, weight, volume;
        uint64_t ug;
    } sums[] = {
        {1000, 748600, 16040, 24060, 1828580266667}, /* .. 666.67 */
        {1, 1, 1, 20000, 0},                         /* 0.18 */
        {1, 1, 3, 20000, 1},                         /* 0.55 */
        {5, 1, 1, 23670, 1},                         /* 0.77 */
        {25, 25, 9, 20000, 1030},                    /* 1,030.5 */
        {3, 768, 1, 24576, 344},                     /* 343.5 */
        {640, 1, 1, 20480, 114},                     /* 114.5 */
        {99999360, 999999, 199999, 20480, 3578080631405290510}, /* .. 510.5 */
        {99999360, 999997, 199999, 20480, 3578073475236871532}, /* .. 531.5 */
        {99999999, 999999, 199999, 20001, 3663794789639057887}, /* .. 886.92 */
        {100000000, 1000000, 200000, 20000, 3664000000000000000},
        {100000000, 1000000, 200000, 26999, 2714174599059224416}, /* .. 415.72 */
        {100000000, 1000000, 200000, 27000, 2714074074074074074}, /* .. 074.07 */
        {0, 1000000, 200000, 24060, 0},
        {100000000, 0, 200000, 24060, 0},
    };
    for (size_t i = 0; i < sizeof sums / sizeof *sums; i++) {
        const struct gas gas = {NO_MONITOR, 0, 0, 1, sums[i].amount, 0, sums[i].carbon,
                                sums[i].weight};
        write_volume(b, 0, sums[i].volume);
        write_analysis(b, 0, &gas);
        compare_modelled(b, one.name, row);
        if (reason_due(0) != 0 || due_of_gas(b, 0).co2 != sums[i].ug)
            stop_at("sums by hand", "the CO2", i);
    }
}

/* The least amount of which so much is left by this volume; 0 if there is none. */
static uint32_t find_amount(uint64_t each, uint32_t volume, uint32_t left)
{
    uint64_t rest = 0;
    for (uint32_t amount = 1; amount < volume; amount++) {
        rest = (rest + each) % volume;
        if (rest == left)
            return amount;
    }
    return 0;
}

/* What is left is as near to half of the volume as a whole number comes that isn't half. A multiple
   of the volume more leaves as much. */
static void compare_near(struct bytes *b, bool is_above, uint64_t *row)
{
    const uint32_t volume = 20000 + draw(row, 7001);
    const uint32_t left = is_above ? volume / 2 + 1 : (volume - 1) / 2;
    struct gas gas = {.unit = NO_MONITOR, .month = 1};
    gas.carbon = 1 + draw(row, 1000000);
    gas.weight = 1 + draw(row, 200000);
    gas.amount = find_amount(UINT64_C(3664) * gas.carbon * gas.weight, volume, left);
    if (gas.amount == 0)
        return;
    gas.amount += volume * draw(row, 3000);
    write_volume(b, 0, volume);
    write_analysis(b, 0, &gas);
    compare_modelled(b, one.name, row);
    near[volume % 2][is_above][(co2_of_gas(b, 0).ug - is_above) % 2]++;
}

/* Every second volume can be met by a half: 3,664 is 16 times an odd number, so that of a multiple
   of 32 a 32nd part, times odd numbers, is one. */
static uint32_t draw_volume(size_t fuel, uint64_t *row)
{
    return fuel % 2 == 0 ? 32 * (625 + draw(row, 219)) : 20000 + draw(row, 7001);
}

/* Small numbers, or any. Of a multiple of the whole volume CO2 is exact. */
static void draw_gas(struct bytes *b, size_t i, const uint32_t volumes[FUELS], uint64_t *row)
{
    const size_t fuel = draw(row, FUELS);
    const uint32_t volume = volumes[fuel];
    const uint32_t part = draw(row, 4) == 0 ? volume : fuel % 2 == 0 ? volume / 32 : 1;
    const bool is_small = draw(row, 2);
    struct gas gas = {.fuel = fuel, .month = 1};
    gas.unit = draw(row, UNLISTED);
    gas.flags = draw(row, 2);
    gas.amount = part * draw(row, is_small ? 100 : 100000000 / part + 1);
    gas.heat = gas.flags * (1 + draw(row, 200000));
    gas.carbon = draw(row, is_small ? 1000 : 1000001);
    gas.weight = 1 + draw(row, is_small ? 1000 : 200000);
    write_analysis(b, i, &gas);
    if (due_of_gas(b, i).method != 3)
        return;
    const struct gas_co2 co2 = co2_of_gas(b, i);
    rounded[volume % 2][co2.digits >= 21][co2.rounding]++;
}

static void compare_drawn(struct bytes *b, uint64_t *row)
{
    make_book(b, &several);
    write_unit_sorts(b);
    for (int i = 0; i < DRAWN; i++) {
        uint32_t volumes[FUELS];
        for (size_t fuel = 0; fuel < FUELS; fuel++) {
            volumes[fuel] = draw_volume(fuel, row);
            write_volume(b, fuel, volumes[fuel]);
        }
        for (size_t j = 0; j < RECORDS; j++)
            draw_gas(b, j, volumes, row);
        compare_modelled(b, several.name, row);
    }
}

void compare_gas_co2(struct bytes *b)
{
    uint64_t row = 29;
    make_book(b, &one);
    write_unit_sorts(b);
    compare_sums(b, &row);
    for (int i = 0; i < DRAWN_NEAR; i++)
        compare_near(b, i % 2 == 1, &row);
    compare_drawn(b, &row);
}

/* An odd volume has no half. */
static void see_rounded(void)
{
    for (int is_odd = 0; is_odd < 2; is_odd++)
        for (int is_wide = 0; is_wide < 2; is_wide++)
            for (enum rounding i = 0; i < ROUNDINGS; i++)
                if ((rounded[is_odd][is_wide][i] == 0) != (is_odd && i >= HALF_DOWN)) {
                    printf("%lu times CO2 of gas by an %s volume, of a product that is%s wide, is "
                           "rounded in way %d\n", rounded[is_odd][is_wide][i],
                           is_odd ? "odd" : "even", is_wide ? "" : "n't", (int)i);
                    exit(1);
                }
}

static unsigned long count_rounded(bool is_wide, enum rounding i)
{
    return rounded[0][is_wide][i] + rounded[1][is_wide][i];
}

static void see_near(void)
{
    for (int i = 0; i < 8; i++) {
        const int is_odd = i / 4, is_above = i / 2 % 2, is_after_odd = i % 2;
        if (near[is_odd][is_above][is_after_odd] == 0) {
            printf("of no gas by an %s volume is next to half left, %s it after an %s quotient\n",
                   is_odd ? "odd" : "even", is_above ? "above" : "below",
                   is_after_odd ? "odd" : "even");
            exit(1);
        }
    }
}

static unsigned long count_near(bool is_above)
{
    return near[0][is_above][0] + near[0][is_above][1] + near[1][is_above][0] +
           near[1][is_above][1];
}

void tell_gas_co2(void)
{
    see_rounded();
    see_near();
    for (int is_wide = 0; is_wide < 2; is_wide++)
        printf("CO2 of drawn gas, of products %s: %lu times exact, %lu rounded down, %lu up, "
               "halves %lu to the even number below, %lu above\n",
               is_wide ? "past 64 bits" : "of up to 20 digits",
               count_rounded(is_wide, EXACT), count_rounded(is_wide, DOWN),
               count_rounded(is_wide, UP), count_rounded(is_wide, HALF_DOWN),
               count_rounded(is_wide, HALF_UP));
    printf("CO2 next to a half: %lu times below, %lu above\n", count_near(false),
           count_near(true));
}
