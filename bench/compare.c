/* The books and checkpoints on which every call is compared. */
#include "compare.h"

#include "compare_anodes.h"
#include "compare_calls.h"
#include "compare_dry.h"
#include "compare_fuel.h"
#include "compare_gas.h"
#include "compare_gas_co2.h"
#include "compare_large.h"
#include "compare_long.h"
#include "compare_numbers.h"
#include "compare_repeats.h"
#include "compare_tallies.h"
#include "compare_volumes.h"

#include <string.h>

enum { FUZZED = 45000, DRAWN = 20000 };

static const struct recipe small = {"small", MIXED, 10, 4, 4};
static const struct recipe low = {"small, low", LOW_HEATS, 10, 4, 4};
static const struct recipe dry = {"small, dry", DRY_HOURS, 10, 4, 4};
static const struct recipe repeated = {"small, repeated", REPEATED_HOURS, 10, 4, 4};
static const struct recipe smelter = {"small, smelter", SMELTER, 9, 4, 4};
static const struct recipe refinery = {"small, refinery", REFINERY, 10, 4, 4};

/* Every record, and two that aren't there. */
static void compare_records(const struct bytes *b, const char *name)
{
    for (size_t i = 0; i <= b->records; i++)
        compare_record(b, name, (uint32_t)i);
    compare_record(b, name, UINT32_MAX);
}

/* Every call on a book, by wakes of several budgets, from checkpoints that were damaged too, and a
   look at every record. */
static void compare_book(const struct bytes *b, const char *name)
{
    static const uint32_t budgets[] = {0, 1, 10, 100, UINT32_MAX};
    uint64_t row = 3;
    for (size_t i = 0; i < sizeof budgets / sizeof *budgets; i++) {
        struct out at = compare_fresh(b, name, SIZE);
        do {
            struct out damaged = at;
            damage(damaged.bytes, SIZE, &row);
            compare_report(b, name, &damaged, SIZE);
            compare_left(b, name, &damaged, SIZE);
            compare_wake(b, name, &damaged, SIZE, budgets[i], SIZE);
            compare_report(b, name, &at, SIZE);
            compare_left(b, name, &at, SIZE);
        } while (compare_wake(b, name, &at, SIZE, budgets[i], SIZE) != 0);
        compare_report(b, name, &at, SIZE);
    }
    compare_records(b, name);
}

static void make_under(struct bytes *b, const struct recipe *recipe, unsigned set)
{
    make_book(b, recipe);
    b->book[in_trailer(b, SET_AT)] = (uint8_t)set;
}

void compare_sets(struct bytes *b, const struct recipe *recipe)
{
    for (unsigned set = 0; set < WARMING_SETS; set++) {
        make_under(b, recipe, set);
        compare_book(b, recipe->name);
    }
}

/* Every number of a set, and beside each that is right the bytes that have to be 0. */
static void compare_trailers(struct bytes *b)
{
    for (unsigned set = 0; set < 256; set++) {
        make_under(b, &small, set);
        compare_book(b, "set");
    }
    for (unsigned set = 0; set < WARMING_SETS; set++)
        for (size_t at = YEAR_AT + 2; at < BOOK_LINE; at++) {
            make_under(b, &small, set);
            b->book[in_trailer(b, at)] ^= 128;
            compare_book(b, "trailer");
        }
}

/* A checkpoint knows no set: begun under one it goes on and is reported under the other. */
static void compare_other_set(struct bytes *b)
{
    for (unsigned set = 0; set < WARMING_SETS; set++) {
        make_under(b, &small, set);
        struct out at = compare_fresh(b, "other set", SIZE);
        compare_wake(b, "other set", &at, SIZE, 4, SIZE);
        b->book[in_trailer(b, SET_AT)] ^= 1;
        compare_left(b, "other set", &at, SIZE);
        compare_wake(b, "other set", &at, SIZE, UINT32_MAX, SIZE);
        compare_report(b, "other set", &at, SIZE);
        b->book[in_trailer(b, SET_AT)] ^= 1;
        compare_report(b, "other set", &at, SIZE);
    }
}

/* Heats about the ends of their ranges, and about a half of 1.11 times the value. */
static void compare_heats_of(struct bytes *b, size_t unit, size_t fuel, uint32_t flags)
{
    static const uint32_t heats[] = {0,      1,      49,     50,     51,     149,        150,
                                     179949, 179950, 180000, 180001, 200000, 200001, UINT32_MAX};
    for (size_t i = 0; i < sizeof heats / sizeof *heats; i++) {
        struct out at = compare_fresh(b, "heats", SIZE);
        write_heat(b, 0, unit, fuel, flags, heats[i]);
        compare_record(b, "heats", 0);
        compare_wake(b, "heats", &at, SIZE, 1, SIZE);
    }
}

/* Every pattern of the lowest four flags, of each class in a unit with a monitor, a small and a big
   one. */
static void compare_heats(struct bytes *b)
{
    make_under(b, &small, 0);
    for (uint32_t flags = 0; flags < 16; flags++)
        for (size_t unit = 0; unit < 3; unit++)
            for (size_t fuel = 0; fuel < 4; fuel++)
                compare_heats_of(b, unit, fuel, flags);
}

/* Every pattern of a unit's flags, with records of every kind, and with moisture. */
static void compare_flags(struct bytes *b)
{
    static const struct recipe *const kinds[3] = {&smelter, &refinery, &dry};
    for (uint32_t flags = 0; flags < 256; flags++)
        for (size_t unit = 0; unit < 4; unit++)
            for (int i = 0; i < 3; i++) {
                make_under(b, kinds[i], 0);
                write_flags(b, unit, flags);
                compare_book(b, "flags");
            }
}

/* Whole tonnes about the limits of the decision, in a checkpoint that no wake made. It is reported
   under both sets. */
static void compare_decisions(struct bytes *b)
{
    static const uint32_t limits[4] = {8000, 20000, 100, 40}; /* fossil, biomass, CH4 and N2O */
    uint64_t row = 7;
    make_under(b, &small, 0);
    struct out at = compare_fresh(b, "decisions", SIZE);
    compare_wake(b, "decisions", &at, SIZE, UINT32_MAX, SIZE);
    for (int i = 0; i < DRAWN; i++) {
        for (int g = 0; g < 4; g++) {
            const uint64_t ledger[2] = {draw(&row, limits[g]), 0};
            memcpy(at.bytes + 16 + 16 * g, ledger, sizeof ledger);
        }
        for (unsigned set = 0; set < WARMING_SETS; set++) {
            b->book[in_trailer(b, SET_AT)] = (uint8_t)set;
            compare_report(b, "decisions", &at, SIZE);
        }
    }
}

/* Lengths that are wrong, one at a time and together. */
static void compare_lengths(struct bytes *b)
{
    static const size_t wrong[] = {
        0, 1, BOOK_LINE - 1, BOOK_LINE + 1, SIZE - 1, SIZE + 1, LONGEST_BOOK - 1};
    const size_t right = b->length;
    struct out at = compare_fresh(b, "lengths", SIZE);
    for (size_t i = 0; i < sizeof wrong / sizeof *wrong; i++) {
        size_t short_one = wrong[i] < ROOM ? wrong[i] : 0;
        compare_fresh(b, "lengths", short_one);
        compare_wake(b, "lengths", &at, short_one, 1, SIZE);
        compare_wake(b, "lengths", &at, SIZE, 1, short_one);
        compare_wake(b, "lengths", &at, short_one, 1, short_one);
        compare_report(b, "lengths", &at, short_one);
        compare_left(b, "lengths", &at, short_one);
        b->length = wrong[i];
        compare_fresh(b, "lengths", short_one);
        compare_wake(b, "lengths", &at, SIZE, 1, SIZE);
        compare_report(b, "lengths", &at, SIZE);
        compare_left(b, "lengths", &at, SIZE);
        compare_record(b, "lengths", 0);
        b->length = right;
    }
}

static void compare_too_many(struct bytes *b)
{
    const struct recipe units = {"65 units", MIXED, 10, 65, 4};
    const struct recipe fuels = {"65 fuels", MIXED, 10, 4, 65};
    make_book(b, &units);
    compare_book(b, units.name);
    make_book(b, &fuels);
    compare_book(b, fuels.name);
}

/* Each reason, and a byte or two damaged, in small books of this set. */
static void compare_faults(struct bytes *b, unsigned set)
{
    static const struct recipe *const kinds[6] = {&low,   &dry,     &repeated,
                                                  &small, &smelter, &refinery};
    uint64_t row = 5;
    for (unsigned reason = 1; reason <= 7; reason++) {
        make_under(b, &small, set);
        spoil(b, 0, reason);
        compare_book(b, "spoiled");
    }
    for (int i = 0; i < FUZZED; i++) {
        make_under(b, kinds[i % 6], set);
        for (uint32_t more = 1 + draw(&row, 2); more != 0; more--)
            damage(b->book, b->length, &row);
        compare_book(b, "damaged");
    }
}

void compare_damaged(void)
{
    static struct bytes b;
    make_book(&b, &small);
    compare_lengths(&b);
    for (unsigned set = 0; set < WARMING_SETS; set++)
        compare_faults(&b, set);
    compare_trailers(&b);
    compare_other_set(&b);
    compare_heats(&b);
    compare_flags(&b);
    compare_fuel(&b);
    compare_dry(&b);
    compare_anodes(&b);
    compare_gas(&b);
    compare_gas_co2(&b);
    compare_volumes(&b);
    compare_repeats(&b);
    compare_numbers(&b);
    compare_decisions(&b);
    compare_too_many(&b);
    compare_large(&b);
    tell_compared();
    tell_fuel();
    tell_dry();
    tell_anodes();
    tell_gas();
    tell_gas_co2();
    tell_volumes();
    tell_tallies();
    tell_long();
    tell_numbers();
    tell_large();
}
