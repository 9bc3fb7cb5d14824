/*
 * Wakes late in a book. Fuel and gas ask for nothing that stands before them, an hour and anodes
 * for nearly a whole book, unless they are found in it.
 */
#include "late.h"

#include "timing.h"

#include <stdio.h>

static const struct kind {
    uint8_t number;
    const char *name;
} kinds[] = {{FUEL, "fuel"}, {HOUR, "an hour"}, {GAS, "gas"}, {ANODES, "anodes"}};

enum { KINDS = sizeof kinds / sizeof *kinds };

static void time_last(struct job *job, const struct recipe *recipe, const struct kind *kind)
{
    const struct bytes *b = job->book;
    uint32_t i = (uint32_t)b->records;
    char name[64];
    while (i > 0 && b->book[BOOK_LINE * (i - 1)] != kind->number)
        i--;
    if (i == 0)
        return;
    start_at(job, i - 1);
    job->budget = 1;
    snprintf(name, sizeof name, "%s, %s", kind->name, recipe->name);
    row(name, i - 1, measure(do_one_wake, job), 1);
}

void time_lasts_of(struct bytes *b, const struct recipe *recipe)
{
    struct job job = begin(b, recipe);
    for (int i = 0; i < KINDS; i++)
        time_last(&job, recipe, &kinds[i]);
}

/* Hours of 15 units are all in one year, of 12 units the last ones repeat others. So do all anodes
   but the first year's; a smelter's don't. */
static const struct recipe longest[] = {
    {"a site's hours, 12 units", SITE_HOURS, MOST_RECORDS, 12, 0},
    {"a site's hours, 15 units", SITE_HOURS, MOST_RECORDS, 15, 0},
    {"all hours, 15 units", ALL_HOURS, MOST_RECORDS, 15, 0},
    {"mixed, 8 units, 8 fuels", MIXED, MOST_RECORDS, 8, 8},
    {"mixed, 64 units, 64 fuels", MIXED, MOST_RECORDS, 64, 64},
    {"all fuel, 8 units, 8 fuels", ALL_FUEL, MOST_RECORDS, 8, 8},
    {"all anodes, 64 units", ALL_ANODES, MOST_RECORDS, 64, 0},
    {"smelter, 12 units, 8 fuels", SMELTER, MOST_RECORDS, 12, 8},
};

enum { BOOKS = sizeof longest / sizeof *longest };

static void time_end(struct bytes *b, const struct recipe *recipe)
{
    static const uint32_t budgets[] = {0, 10, 100, 1000};
    struct job job = begin(b, recipe);
    for (size_t i = 0; i < sizeof budgets / sizeof *budgets; i++) {
        const uint32_t place = (uint32_t)b->records - budgets[i];
        char name[64];
        start_at(&job, place);
        job.budget = budgets[i];
        snprintf(name, sizeof name, "budget %u, %s", (unsigned)budgets[i], recipe->name);
        row(name, place, measure(do_one_wake, &job), 1);
    }
}

void time_late(struct bytes *b)
{
    head("the end of a longest book, so many before", "ns/wake");
    for (int i = 0; i < BOOKS; i++) {
        time_lasts_of(b, &longest[i]);
        time_end(b, &longest[i]);
    }
}
