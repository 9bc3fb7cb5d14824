/* Times the library and the plain C, once they are seen to answer alike. */
#include "compare.h"
#include "flat.h"
#include "late.h"
#include "limits.h"
#include "stack.h"
#include "timing.h"

#include <stdbool.h>
#include <stdio.h>
#include <string.h>

/* A whole job, the wake in one piece. */
static void do_whole(const struct calls *calls, const struct job *job)
{
    const struct bytes *b = job->book;
    uint8_t start[SIZE], end[SIZE];
    uint64_t figures[6];
    calls->fresh(b->book, b->length, start, SIZE);
    calls->wake(b->book, b->length, start, SIZE, UINT32_MAX, end, SIZE);
    calls->report(b->book, b->length, end, SIZE, figures);
}

/* The whole book by wakes of one budget, each from the checkpoint that the last one wrote. */
static void do_wakes(const struct calls *calls, const struct job *job)
{
    const struct bytes *b = job->book;
    uint8_t turns[2][SIZE];
    memcpy(turns[0], job->start, SIZE);
    for (uint32_t i = 0, done = 0; done < b->records; i ^= 1)
        done += wetherstep_count(calls->wake(b->book, b->length, turns[i], SIZE, job->budget,
                                             turns[i ^ 1], SIZE));
}

static void do_report(const struct calls *calls, const struct job *job)
{
    uint64_t figures[6];
    calls->report(job->book->book, job->book->length, job->at, SIZE, figures);
}

static const struct recipe books[] = {
    {"full, mixed, 8 units, 8 fuels", MIXED, 0, 8, 8},
    {"full, all fuel, 8 units, 8 fuels", ALL_FUEL, 0, 8, 8},
    {"full, low heats, 8 units, 8 fuels", LOW_HEATS, 0, 8, 8},
    {"full, all hours, 8 units", ALL_HOURS, 0, 8, 0},
    {"full, dry hours, 8 units", DRY_HOURS, 0, 8, 0},
    {"full, rising hours, 8 units", RISING_HOURS, 0, 8, 0},
    {"full, repeated hours, 8 units", REPEATED_HOURS, 0, 8, 0},
    {"full, all hours, 64 units", ALL_HOURS, 0, 64, 0},
    {"full, rising hours, 64 units", RISING_HOURS, 0, 64, 0},
    {"full, repeated hours, 64 units", REPEATED_HOURS, 0, 64, 0},
    {"full, mixed, 64 units, 64 fuels", MIXED, 0, 64, 64},
    {"full, smelter, 8 units, 8 fuels", SMELTER, 0, 8, 8},
    {"full, smelter, 64 units, 64 fuels", SMELTER, 0, 64, 64},
    {"a year of anodes, 8 units", ALL_ANODES, 8 * LAST_MONTH, 8, 0},
    {"a year of anodes, 64 units", ALL_ANODES, 64 * LAST_MONTH, 64, 0},
    {"full, repeated anodes, 64 units", ALL_ANODES, 0, 64, 0},
    {"full, all gas, 8 units, 8 fuels", ALL_GAS, 0, 8, 8},
    {"full, all gas, 64 units, 64 fuels", ALL_GAS, 0, 64, 64},
    {"full, refinery, 8 units, 8 fuels", REFINERY, 0, 8, 8},
    {"full, refinery, 64 units, 64 fuels", REFINERY, 0, 64, 64},
    {"small, mixed, 4 units, 4 fuels", MIXED, 1, 4, 4},
    {"small, mixed, 4 units, 4 fuels", MIXED, 10, 4, 4},
    {"small, mixed, 4 units, 4 fuels", MIXED, 100, 4, 4},
};

enum { BOOKS = sizeof books / sizeof *books };

static void time_books(struct bytes *b)
{
    head("fresh start, one wake, report", "ns/record");
    for (int i = 0; i < BOOKS; i++) {
        struct job job = begin(b, &books[i]);
        row(books[i].name, b->records, measure(do_whole, &job), (double)b->records);
    }
}

/* Whether a book is timed by wakes: a full one, of which a wake may look back, or a year of anodes,
   after which more would repeat others. Dry hours look back as wet ones do. Of what doesn't look
   back analysed gas stands for all. */
static bool is_woken(const struct recipe *recipe)
{
    if (recipe->mix == ALL_ANODES)
        return true;
    return recipe->records == 0 && recipe->mix != ALL_FUEL && recipe->mix != LOW_HEATS &&
           recipe->mix != DRY_HOURS;
}

static void time_wakes(struct bytes *b)
{
    static const uint32_t budgets[] = {1, 10, 100};
    head("a book by wakes", "ns/wake");
    for (int i = 0; i < BOOKS; i++)
        for (int j = 0; j < 3 && is_woken(&books[i]); j++) {
            struct job job = begin(b, &books[i]);
            char name[64];
            size_t wakes = (b->records + budgets[j] - 1) / budgets[j];
            job.budget = budgets[j];
            snprintf(name, sizeof name, "budget %u, %s", (unsigned)budgets[j], books[i].name);
            row(name, b->records, measure(do_wakes, &job), (double)wakes);
        }
}

static void time_lasts(struct bytes *b)
{
    head("one record, so many before it", "ns/wake");
    for (int i = 0; i < BOOKS; i++)
        if (is_woken(&books[i]))
            time_lasts_of(b, &books[i]);
}

static void time_opening(const struct job *job, const struct recipe *recipe, work *work,
                         const char *call)
{
    char name[64];
    snprintf(name, sizeof name, "%s, %zu units, %zu fuels", call, recipe->units, recipe->fuels);
    row(name, job->book->records, measure(work, job), 1);
}

static void time_openings(struct bytes *b)
{
    head("a book opened, and no more", "ns/call");
    for (int i = 0; i < BOOKS; i++)
        if (books[i].mix == MIXED && (books[i].records == 0 || books[i].records == 1)) {
            struct job job = begin(b, &books[i]);
            time_opening(&job, &books[i], do_one_wake, "wake of 0");
            time_opening(&job, &books[i], do_report, "report");
        }
}

static void compare(struct bytes *b)
{
    for (int i = 0; i < BOOKS; i++)
        compare_sets(b, &books[i]);
    compare_damaged();
}

static void measure_stack(struct bytes *b)
{
    static const struct recipe longest[] = {{"fuel", ALL_FUEL, MOST_RECORDS, 64, 64},
                                            {"gas", ALL_GAS, MOST_RECORDS, 64, 64},
                                            {"hours", SITE_HOURS, MOST_RECORDS, 15, 0},
                                            {"hours", ALL_HOURS, MOST_RECORDS, 64, 0},
                                            {"anodes", ALL_ANODES, MOST_RECORDS, 64, 0},
                                            {"smelter", SMELTER, MOST_RECORDS, 64, 64}};
    tell_stack(b, "of the books above", books, BOOKS);
    tell_stack(b, "of longest books", longest, sizeof longest / sizeof *longest);
}

/* What can be asked for by name, and is then told with no comparison before it. */
static const struct table {
    const char *name;
    void (*tell)(struct bytes *b);
} tables[] = {{"books", time_books},       {"wakes", time_wakes}, {"lasts", time_lasts},
              {"openings", time_openings}, {"flat", time_flat},   {"late", time_late},
              {"limits", time_limits},     {"stack", measure_stack}};

enum { TABLES = sizeof tables / sizeof *tables };

static const struct table *table_named(const char *name)
{
    for (int i = 0; i < TABLES; i++)
        if (strcmp(tables[i].name, name) == 0)
            return &tables[i];
    return NULL;
}

static int tell_usage(void)
{
    fprintf(stderr, "usage: bench/run [compare | TABLE..], a table being one of");
    for (int i = 0; i < TABLES; i++)
        fprintf(stderr, " %s", tables[i].name);
    fprintf(stderr, "\n");
    return 2;
}

static void tell_all(struct bytes *b)
{
    compare(b);
    tell_rounds();
    for (int i = 0; i < TABLES; i++)
        tables[i].tell(b);
}

int main(int count, char **words)
{
    static struct bytes b;
    if (count == 1) {
        tell_all(&b);
        return 0;
    }
    if (count == 2 && strcmp(words[1], "compare") == 0) {
        compare(&b);
        return 0;
    }
    for (int i = 1; i < count; i++)
        if (table_named(words[i]) == NULL)
            return tell_usage();
    tell_rounds();
    for (int i = 1; i < count; i++)
        table_named(words[i])->tell(&b);
    return 0;
}
