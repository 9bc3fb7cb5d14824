/*
 * Time per record must not grow with the book. A wake costs something of its own, which in a short
 * book is much beside its records. So it is told besides what a record more takes: a wake of all,
 * less a wake of a book of the row above, by how many records it has more.
 *
 * A book that is gone through again and again is learned by the processor, if it is short: it knows
 * which way each record goes. Of a long mixed one it can't, and jumps foreseen wrongly take as long
 * as half of the work. So the wakes are timed on a shelf too: as many different books of one length
 * as have together the records of a longest one, so that nothing but the length differs.
 */
#include "flat.h"

#include "timing.h"

#include <stdio.h>
#include <string.h>

static const size_t sizes[] = {32, 64, 128, 256, 512, 0, 16384, 65536, MOST_RECORDS};

/* 12 units have 105,408 hours, and 8 have 70,272; anodes of 12 are 144, of 64 they are 768. What
   follows repeats these. */
static const struct recipe growing[] = {{"mixed, 8 units, 8 fuels", MIXED, 0, 8, 8},
                                        {"mixed, 12 units, 8 fuels", MIXED, 0, 12, 8},
                                        {"all hours, 8 units", ALL_HOURS, 0, 8, 0},
                                        {"a site's hours, 12 units", SITE_HOURS, 0, 12, 0},
                                        {"all hours, 12 units", ALL_HOURS, 0, 12, 0},
                                        {"repeated hours, 12 units", REPEATED_HOURS, 0, 12, 0},
                                        {"all anodes, 12 units", ALL_ANODES, 0, 12, 0},
                                        {"all anodes, 64 units", ALL_ANODES, 0, 64, 0},
                                        {"all gas, 8 units, 8 fuels", ALL_GAS, 0, 8, 8}};

/* Books of one length, one behind the other. The shortest have 32 records and 65 lines more. */
static struct shelf {
    size_t count, length;
    uint8_t books[4 * LONGEST_BOOK];
} shelf;

static void fill_shelf(struct bytes *b, struct recipe recipe, size_t records)
{
    static struct bytes some;
    recipe.records = MOST_RECORDS;
    make_book(b, &recipe);
    shelf.count = b->records / records;
    for (size_t i = 0; i < shelf.count; i++) {
        take_records(&some, b, i * records, records);
        memcpy(shelf.books + i * some.length, some.book, some.length);
    }
    shelf.length = some.length;
}

/* Of books of one length and year the fresh checkpoints are the same. */
static void do_shelf(const struct calls *calls, const struct job *job)
{
    uint8_t out[SIZE];
    for (size_t i = 0; i < shelf.count; i++)
        calls->wake(shelf.books + i * shelf.length, shelf.length, job->start, SIZE, job->budget,
                    out, SIZE);
}

static void tell(struct times t, double parts)
{
    printf("  %6.1f %6.1f %5.2f", t.library / parts, t.plain / parts, t.library / t.plain);
}

/* A wake of all records, once the same ones are learned and of different books. */
struct row {
    size_t records;
    struct times learned, different;
};

static struct row time_size(struct bytes *b, struct recipe recipe, size_t size)
{
    recipe.records = size;
    struct job job = begin(b, &recipe);
    job.budget = UINT32_MAX;
    struct row row = {b->records, measure(do_one_wake, &job), {0, 0}};
    fill_shelf(b, recipe, row.records);
    row.different = measure(do_shelf, &job);
    row.different.library /= (double)shelf.count;
    row.different.plain /= (double)shelf.count;
    return row;
}

static void tell_row(const char *name, struct row row, struct row above)
{
    const struct times more = {row.different.library - above.different.library,
                               row.different.plain - above.different.plain};
    printf("%-26s %7zu", name, row.records);
    tell(row.learned, (double)row.records);
    tell(row.different, (double)row.records);
    if (above.records != 0)
        tell(more, (double)(row.records - above.records));
    printf("\n");
    fflush(stdout);
}

void time_flat(struct bytes *b)
{
    printf("\n%-26s %7s  %19s  %19s  %19s\n", "a wake of all, ns/record", "records",
           "one book", "different books", "a record more");
    printf("%-26s %7s", "", "");
    for (int i = 0; i < 3; i++)
        printf("  %6s %6s %5s", "lib.", "C", "ratio");
    printf("\n");
    for (size_t i = 0; i < sizeof growing / sizeof *growing; i++) {
        struct row above = {0, {0, 0}, {0, 0}};
        for (size_t j = 0; j < sizeof sizes / sizeof *sizes; j++) {
            const struct row row = time_size(b, growing[i], sizes[j]);
            tell_row(growing[i].name, row, above);
            above = row;
        }
    }
}
