/*
 * The model of records that stand before, by the requirements: a record has the reason that it has
 * as the only record of its book, or else, if it is an hour or anodes that stand before, reason 8.
 * To look at all earlier records for each is slow, and plain to see. What anodes and analysed gas
 * give as the only record is held against models of their own.
 */
#include "compare_model.h"

#include "compare_calls.h"
#include "compare_tallies.h"
#include "model_anodes.h"
#include "model_gas.h"

#include <stdio.h>
#include <stdlib.h>
#include <string.h>

enum { LINES = FULL_BOOK / BOOK_LINE, DRAWN_WAKES = 12 };
enum { LEDGERS_AT = 16, LEDGER_SIZE = 16, FOSSIL = 0, BIOMASS, CH4, N2O, LEDGERS };

typedef unsigned __int128 wide;

/* Of each record: what it gives as the only one of its book, and its reason; and the checkpoints,
   the fresh one first. */
static struct look alone[LINES];
static unsigned due[LINES];
static struct out reached[LINES + 1];

/* Of a record that stands before, where the last one is that it repeats. */
static size_t last[LINES];

void stop_at(const char *name, const char *what, size_t i)
{
    printf("%s: %s of record %zu isn't as the requirements say\n", name, what, i);
    exit(1);
}

static const uint8_t *line(const struct bytes *b, size_t i)
{
    return b->book + BOOK_LINE * i;
}

static bool can_repeat(const uint8_t *l)
{
    return l[0] == HOUR || l[0] == ANODES;
}

static bool has_unit_and_number_of(const uint8_t *l, const uint8_t *m)
{
    return l[2] == m[2] && l[3] == m[3] && l[6] == m[6] && l[7] == m[7];
}

static struct before look_back(const struct bytes *b, size_t i)
{
    const uint8_t *l = line(b, i);
    struct before before = {0, false};
    for (size_t j = 0; j < i && can_repeat(l); j++) {
        const uint8_t *m = line(b, j);
        if (!can_repeat(m) || !has_unit_and_number_of(l, m))
            continue;
        if (l[0] == m[0]) {
            before.reasons |= 1u << due[j];
            last[i] = j;
        } else
            before.is_other_kind = true;
    }
    return before;
}

static void see_anodes(const struct bytes *b, const char *name, size_t i)
{
    const struct look *look = &alone[i];
    const unsigned reason = reason_of_anodes(b, i);
    if (wetherstep_reason(look->reply) != reason)
        stop_at(name, "the reason of the anodes", i);
    if (reason != 0)
        return;
    if (look->reply != (uint64_t)WETHERSTEP_LEDGER_FOSSIL << 24) /* with method 0 */
        stop_at(name, "method or ledger of the anodes", i);
    if (look->masses[WETHERSTEP_MASS_CO2] != co2_of_anodes(line(b, i)).ug ||
        look->masses[WETHERSTEP_MASS_CH4] != 0 || look->masses[WETHERSTEP_MASS_N2O] != 0)
        stop_at(name, "a mass of the anodes", i);
}

static void see_gas(const struct bytes *b, const char *name, size_t i)
{
    const struct look *look = &alone[i];
    const struct gas_due gas = due_of_gas(b, i);
    const uint64_t ledger = gas.method == 4 ? WETHERSTEP_LEDGER_NONE : WETHERSTEP_LEDGER_FOSSIL;
    if (wetherstep_reason(look->reply) != gas.reason)
        stop_at(name, "the reason of the gas", i);
    if (gas.reason != 0)
        return;
    if (look->reply != (ledger << 24 | gas.method << 16))
        stop_at(name, "method or ledger of the gas", i);
    if (look->masses[WETHERSTEP_MASS_CO2] != gas.co2 ||
        look->masses[WETHERSTEP_MASS_CH4] != gas.ch4 ||
        look->masses[WETHERSTEP_MASS_N2O] != gas.n2o)
        stop_at(name, "a mass of the gas", i);
}

/* Works `alone` and `due` out. */
static void expect(const struct bytes *b, const char *name)
{
    static struct bytes single;
    for (size_t i = 0; i < b->records; i++) {
        const uint8_t *l = line(b, i);
        const struct before before = look_back(b, i);
        take_records(&single, b, i, 1);
        alone[i] = compare_record(&single, name, 0);
        if (l[0] == ANODES)
            see_anodes(b, name, i);
        if (l[0] == GAS)
            see_gas(b, name, i);
        due[i] = wetherstep_reason(alone[i].reply);
        if (can_repeat(l))
            count_judged(l[0], due[i], before);
        if (due[i] == 0 && before.reasons != 0)
            due[i] = REPEATED;
    }
}

static uint32_t field(const struct out *at, size_t place)
{
    uint32_t value;
    memcpy(&value, at->bytes + place, sizeof value);
    return value;
}

/* A look at a record that counts is as if it were the only one. */
static void see_look(const struct bytes *b, const char *name, size_t i)
{
    const struct look look = compare_record(b, name, (uint32_t)i);
    if (wetherstep_reason(look.reply) != due[i])
        stop_at(name, "the reason", i);
    if (due[i] == 0 && memcmp(&look, &alone[i], sizeof look) != 0)
        stop_at(name, "a mass", i);
}

/* Whether a ledger has risen by so many ng, and has tonnes and what is left of one. */
static bool has_risen(const struct out *from, const struct out *to, size_t ledger, wide ng)
{
    static const uint64_t tonne = 1000000000000000;
    uint64_t before[2], after[2];
    memcpy(before, from->bytes + LEDGERS_AT + LEDGER_SIZE * ledger, sizeof before);
    memcpy(after, to->bytes + LEDGERS_AT + LEDGER_SIZE * ledger, sizeof after);
    const wide total = (wide)before[0] * tonne + before[1] + ng;
    return after[0] == total / tonne && after[1] == total % tonne;
}

/* A record that counts adds its masses, CO2 to its own ledger, and any other nothing. */
static void see_ledgers(const char *name, size_t i)
{
    wide added[LEDGERS] = {0};
    if (due[i] == 0) {
        const unsigned ledger = wetherstep_ledger(alone[i].reply);
        if (ledger != WETHERSTEP_LEDGER_NONE)
            added[ledger == WETHERSTEP_LEDGER_FOSSIL ? FOSSIL : BIOMASS] =
                (wide)1000 * alone[i].masses[WETHERSTEP_MASS_CO2];
        added[CH4] = alone[i].masses[WETHERSTEP_MASS_CH4];
        added[N2O] = alone[i].masses[WETHERSTEP_MASS_N2O];
    }
    for (size_t g = 0; g < LEDGERS; g++)
        if (!has_risen(&reached[i], &reached[i + 1], g, added[g]))
            stop_at(name, "a ledger after the wake", i);
}

/* Goes through the book by wakes of one record, each held against `alone` and `due`. */
static void reach(const struct bytes *b, const char *name)
{
    uint32_t aside = 0, first = 0, reason = 0;
    reached[0] = compare_fresh(b, name, SIZE);
    for (size_t i = 0; i < b->records; i++) {
        struct out *at = &reached[i + 1];
        if (due[i] != 0 && aside++ == 0) {
            first = (uint32_t)i;
            reason = due[i];
        }
        *at = reached[i];
        see_look(b, name, i);
        if (compare_wake(b, name, at, SIZE, 1, SIZE) != 1 || field(at, 0) != i + 1 ||
            field(at, 4) != aside || field(at, 8) != first || field(at, REASON_AT) != reason)
            stop_at(name, "the checkpoint", i);
        see_ledgers(name, i);
        compare_report(b, name, at, SIZE);
    }
}

/* A wake from any place comes to the checkpoint that wakes of one record come to. */
static size_t go_on(const struct bytes *b, const char *name, size_t from, uint32_t budget)
{
    struct out at = reached[from];
    size_t to = from + compare_wake(b, name, &at, SIZE, budget, SIZE);
    if (to - from != (budget < b->records - from ? budget : b->records - from) ||
        memcmp(&at, &reached[to], sizeof at) != 0)
        stop_at(name, "a wake's checkpoint", from);
    for (size_t i = from; i < to; i++)
        if (due[i] == REPEATED)
            count_repeat(line(b, i)[0], last[i] >= from);
    return to;
}

static void compare_budgets(const struct bytes *b, const char *name, uint64_t *row)
{
    static const uint32_t budgets[] = {2, 3, 4, 10, 100, UINT32_MAX};
    for (size_t i = 0; i < sizeof budgets / sizeof *budgets; i++)
        for (size_t at = 0; at < b->records;)
            at = go_on(b, name, at, budgets[i]);
    for (int i = 0; i < DRAWN_WAKES; i++) {
        size_t from = draw(row, (uint32_t)b->records + 1);
        go_on(b, name, from, i % 2 == 0 ? draw(row, 6) : draw(row, (uint32_t)b->records + 2));
    }
}

void compare_modelled(const struct bytes *b, const char *name, uint64_t *row)
{
    expect(b, name);
    reach(b, name);
    compare_budgets(b, name, row);
}

unsigned reason_due(size_t i)
{
    return due[i];
}
