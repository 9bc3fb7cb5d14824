/*
 * What a fuel record may hold and where its sums go, by unit, fuel and flags: a table in place of
 * branches, since of a book's flags the processor foresees half.
 *
 * Sums are kept for each fuel, and its factors enter once, when a wake's records are all added. Of
 * a record whose heat wasn't measured the amount alone is added, and the fuel's default heat is a
 * factor too.
 */
#ifndef PLAIN_RULES_H
#define PLAIN_RULES_H

#include "plain_book.h"

enum { SMALL_UNIT, BIG_UNIT, MONITORED_UNIT, NO_UNIT, UNIT_KINDS };

/* A fuel goes by its sort, with HAS_HEAT where it has a default heat. */
enum { HAS_HEAT = 8, FUEL_KINDS = 16, FLAGS = 8 };

/* Sums of a fuel, in units without a monitor and then in those with one: amount * heat by the two
   lowest flags, of records with a default heat the amount alone; and amount * carbon, which comes
   to nothing in units with a monitor. */
enum { CARBON_SUM = 4, UNIT_SUMS, FUEL_SUMS = 2 * UNIT_SUMS };
enum { MONITORED_AT = UNIT_SUMS * 8 }; /* in bytes */

/* The heat to be multiplied is (heat * scale + offset) / 2^37, and 0 where the record is to be set
   aside. Of a low value (111 * heat + 50) / 100 is taken by HUNDREDTH, which is the least number
   above 2^37 / 100: up to 19,980,050 its excess of 0.28 makes no difference. */
#define SCALE_BITS 37
#define ONE_HEAT (UINT64_C(1) << SCALE_BITS)
#define HUNDREDTH UINT64_C(1374389535)

struct rule {
    uint64_t scale, offset;
    uint32_t most_heat, most_carbon;
    uint64_t counted; /* all ones, 0 where the unit's monitor gives the CO2 */
};

#define IS_MEASURED(flags) ((flags)&1)
#define IS_CARBON(flags) ((flags) >> 1 & 1)
#define IS_LOW(flags) ((flags) >> 2 & 1)
#define SORT_OF(fuel) ((fuel)&7)
#define IS_GAS(fuel) (SORT_OF(fuel) == NATURAL_GAS_FUEL || SORT_OF(fuel) == OTHER_GAS_FUEL)
#define IS_REFINED(fuel) (SORT_OF(fuel) == NATURAL_GAS_FUEL || SORT_OF(fuel) == DISTILLATE_FUEL)
#define HAS_DEFAULT(fuel) ((fuel) >> 3 & 1)

/* Whether some method is permitted, and there is a heat in use. */
#define IS_PERMITTED(unit, fuel, flags)                                                            \
    (SORT_OF(fuel) != MADE_UP && (IS_MEASURED(flags) || HAS_DEFAULT(fuel)) &&                      \
     (!IS_LOW(flags) || (IS_MEASURED(flags) && SORT_OF(fuel) == NATURAL_GAS_FUEL)) &&              \
     ((unit) == MONITORED_UNIT || IS_CARBON(flags) || (unit) == SMALL_UNIT ||                      \
      (IS_MEASURED(flags) && IS_REFINED(fuel))))

#define RULE(unit, fuel, flags)                                                                    \
    {                                                                                              \
        .scale = !IS_PERMITTED(unit, fuel, flags) || !IS_MEASURED(flags) ? 0                       \
                 : IS_LOW(flags)                                         ? 111 * HUNDREDTH         \
                                                                         : ONE_HEAT,               \
        .offset = !IS_PERMITTED(unit, fuel, flags) ? 0                                             \
                  : IS_LOW(flags)                  ? 50 * HUNDREDTH                                \
                  : IS_MEASURED(flags)             ? 0                                             \
                                                   : ONE_HEAT,                                     \
        .most_heat = IS_LOW(flags) ? 180000 : IS_MEASURED(flags) ? 200000 : 0,                     \
        .most_carbon = !IS_CARBON(flags) ? 0 : IS_GAS(fuel) ? 4000000 : 1000000,                   \
        .counted = (unit) == MONITORED_UNIT ? 0 : UINT64_MAX                                       \
    }

#define BY_FLAGS(unit, fuel)                                                                       \
    RULE(unit, fuel, 0), RULE(unit, fuel, 1), RULE(unit, fuel, 2), RULE(unit, fuel, 3),            \
        RULE(unit, fuel, 4), RULE(unit, fuel, 5), RULE(unit, fuel, 6), RULE(unit, fuel, 7)

#define BY_CLASS(unit, heat)                                                                       \
    BY_FLAGS(unit, heat), BY_FLAGS(unit, heat + 1), BY_FLAGS(unit, heat + 2),                      \
        BY_FLAGS(unit, heat + 3), BY_FLAGS(unit, heat + 4), BY_FLAGS(unit, heat + 5),              \
        BY_FLAGS(unit, heat + 6), BY_FLAGS(unit, heat + 7)

#define BY_FUEL(unit) BY_CLASS(unit, 0), BY_CLASS(unit, HAS_HEAT)

static const struct rule rules[UNIT_KINDS * FUEL_KINDS * FLAGS] = {
    BY_FUEL(SMALL_UNIT), BY_FUEL(BIG_UNIT), BY_FUEL(MONITORED_UNIT)};

#endif
