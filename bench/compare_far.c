/*
 * The longest book: an hour or anodes that stand far before, held against what is said of them
 * here, and sums and tonnes as great as they can be.
 */
#include "compare_far.h"

#include "book_lines.h"
#include "compare_calls.h"
#include "compare_model.h"

#include <stdio.h>
#include <string.h>

enum { ASIDE_AT = 4, FIRST_AT = 8, LEDGERS_AT = 16, LEDGERS = 4, LEDGER_SIZE = 16 };

static unsigned long repeats, bounds;

static uint32_t field(const struct out *at, size_t place)
{
    uint32_t value;
    memcpy(&value, at->bytes + place, sizeof value);
    return value;
}

/* From a place past the earlier record, and at times past nearly all, through the later one. */
static void compare_pair(const struct bytes *b, const char *name, uint32_t late)
{
    const uint32_t some = late < 30 ? 0 : late - 30, few = late < 3 ? 0 : late - 3;
    const uint32_t froms[] = {0, late / 2, some, few, late};
    const struct out fresh = compare_fresh(b, name, SIZE);
    for (size_t i = 0; i < sizeof froms / sizeof *froms; i++) {
        struct out at = fresh;
        compare_wake(b, name, &at, SIZE, froms[i], SIZE);
        if (field(&at, ASIDE_AT) != 0)
            stop_at(name, "what comes before the repeat", late);
        compare_wake(b, name, &at, SIZE, late + 1 - froms[i], SIZE);
        if (field(&at, ASIDE_AT) != 1 || field(&at, FIRST_AT) != late ||
            field(&at, REASON_AT) != REPEATED)
            stop_at(name, "the checkpoint", late);
    }
    if (wetherstep_reason(compare_record(b, name, late).reply) != REPEATED)
        stop_at(name, "the reason", late);
    repeats++;
}

/* No two records of the book repeat each other but the later of a pair, which gets kind, unit and
   number of the earlier, and other readings. */
static void compare_pairs(struct bytes *b, const char *name)
{
    const uint32_t n = (uint32_t)b->records;
    const uint32_t pairs[][2] = {{0, 1},         {0, 2047},     {0, 2048},     {2046, 2047},
                                 {2047, 2048},   {2047, n - 1}, {2048, n - 1}, {0, n - 1},
                                 {65535, 65536}, {1, 65536},    {65536, n - 1}, {n - 2, n - 1}};
    for (size_t i = 0; i < sizeof pairs / sizeof *pairs; i++) {
        const uint8_t *early = b->book + BOOK_LINE * pairs[i][0];
        uint8_t *late = b->book + BOOK_LINE * pairs[i][1], before[BOOK_LINE];
        memcpy(before, late, BOOK_LINE);
        memcpy(late, early, 8);
        compare_pair(b, name, pairs[i][1]);
        memcpy(late, before, BOOK_LINE);
    }
}

/* Two anodes of one month in a book of fuel, at both ends. */
static void compare_anodes_apart(struct bytes *b)
{
    static const struct recipe fuel = {"far anodes", ALL_FUEL, MOST_RECORDS, 64, 64};
    const struct anodes anodes = {63, LAST_MONTH, 2000000, 400, {1, 2, 3}};
    make_book(b, &fuel);
    write_consumed(b, 0, &anodes);
    write_consumed(b, b->records - 1, &anodes);
    compare_pair(b, fuel.name, (uint32_t)b->records - 1);
}

/* 10^8 units of 200,000 kJ and 200,000 mg/MJ, or ug/MJ, give 4 * 10^18 ug or ng: 4,000,000 t of
   CO2, which is as much as a record can give. */
static void make_heaviest(struct bytes *b, const struct recipe *recipe)
{
    make_book(b, recipe);
    uint8_t *fuel = b->book + BOOK_LINE * (b->records + b->units);
    for (size_t at = 8; at < 20; at += 4)
        put(fuel + at, 200000, 4);
    for (size_t i = 0; i < b->records; i++)
        write_heat(b, i, 0, 0, 1, 200000);
    for (size_t i = 0; i < b->records; i++)
        put(b->book + BOOK_LINE * i + 8, 100000000, 4);
}

static void compare_heaviest(struct bytes *b)
{
    static const struct recipe fuel = {"heaviest", ALL_FUEL, MOST_RECORDS, 1, 1};
    const uint64_t tonnes[LEDGERS] = {4000000, 0, 4000, 4000};
    make_heaviest(b, &fuel);
    struct out at = compare_fresh(b, fuel.name, SIZE);
    compare_wake(b, fuel.name, &at, SIZE, UINT32_MAX, SIZE);
    compare_report(b, fuel.name, &at, SIZE);
    for (size_t g = 0; g < LEDGERS; g++) {
        const uint64_t due[2] = {tonnes[g] * b->records, 0};
        if (memcmp(at.bytes + LEDGERS_AT + LEDGER_SIZE * g, due, sizeof due) != 0)
            stop_at(fuel.name, "the tonnes of ledger", g);
    }
}

/* Carbon, hours and analysed gas as heavy as they can be, and so many tonnes of fossil CO2 each. */
static const struct heavy {
    struct recipe recipe;
    uint64_t tonnes;
} heavies[] = {{{"heaviest carbon", ALL_FUEL, MOST_RECORDS, 1, 1}, 1465600},
               {{"heaviest hours", SITE_HOURS, MOST_RECORDS, 15, 0}, 51800},
               {{"heaviest gas", ALL_GAS, MOST_RECORDS, 1, 1}, 3664000}};

static void make_heavy(struct bytes *b, const struct recipe *recipe)
{
    make_book(b, recipe);
    if (recipe->mix == ALL_GAS)
        write_volume(b, 0, 20000);
    for (size_t i = 0; i < b->records; i++) {
        uint8_t *l = b->book + BOOK_LINE * i;
        if (recipe->mix == ALL_FUEL)
            write_heat(b, i, 0, 0, 2, 0);
        const int is_hour = l[0] == HOUR;
        put(l + 8, is_hour ? 0x42c80000 : 100000000, 4); /* 100 percent, or units of fuel */
        if (is_hour)
            put(l + 12, 0x4e6e6b28, 4); /* 1,000,000,000 scf/h */
        else
            put(l + 16, l[0] == GAS ? 1000000 : 4000000, 4);
        put(l + 20, l[0] == GAS ? 200000 : 0, 4);
    }
}

static void compare_heavies(struct bytes *b)
{
    for (size_t i = 0; i < sizeof heavies / sizeof *heavies; i++) {
        const struct recipe *recipe = &heavies[i].recipe;
        make_heavy(b, recipe);
        struct out at = compare_fresh(b, recipe->name, SIZE);
        compare_wake(b, recipe->name, &at, SIZE, UINT32_MAX, SIZE);
        compare_report(b, recipe->name, &at, SIZE);
        const uint64_t due[2] = {heavies[i].tonnes * b->records, 0};
        if (memcmp(at.bytes + LEDGERS_AT, due, sizeof due) != 0)
            stop_at(recipe->name, "the tonnes of the last", b->records - 1);
    }
}

/* A checkpoint that no wake made, with as many tonnes as so many records can give, and one more. */
static void compare_bound(const struct bytes *b, const char *name, uint32_t done)
{
    const struct out fresh = compare_fresh(b, name, SIZE);
    for (size_t g = 0; g < LEDGERS; g++)
        for (uint64_t more = 0; more < 2; more++) {
            const uint64_t ledger[2] = {UINT64_C(4000000) * done + more, UINT64_C(999999999999999)};
            struct out at = fresh;
            memcpy(at.bytes, &done, sizeof done);
            memcpy(at.bytes + LEDGERS_AT + LEDGER_SIZE * g, ledger, sizeof ledger);
            const unsigned due = more || done > b->records ? WETHERSTEP_CHECKPOINT_UNSOUND : 0;
            if (wetherstep_number(compare_left(b, name, &at, SIZE)) != due)
                stop_at(name, "the bound on tonnes", done);
            compare_wake(b, name, &at, SIZE, 10, SIZE);
            compare_report(b, name, &at, SIZE);
            bounds++;
        }
}

void compare_far(struct bytes *b)
{
    static const struct recipe hours = {"far hours", SITE_HOURS, MOST_RECORDS, 15, 0};
    make_book(b, &hours);
    compare_pairs(b, hours.name);
    compare_anodes_apart(b);
    compare_heavies(b);
    compare_heaviest(b);
    for (uint32_t less = 0; less < 11; less++)
        compare_bound(b, "bounds", (uint32_t)b->records + 1 - less);
    compare_bound(b, "bounds", 2048);
}

void tell_far(void)
{
    printf("hours and anodes repeated across the longest book: %lu; bounds on its tonnes: %lu\n",
           repeats, bounds);
}
