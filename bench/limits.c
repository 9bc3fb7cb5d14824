/*
 * The machine's own limit is the time in which it reads a record's 32 bytes, as four words that are
 * added up. Wakes and reading are timed in one run, of a full book, which stays in cache, and of
 * copies of a longest one: each is gone through once before the first is met again, and together
 * they are longer than the last cache, so that their lines come from memory.
 */
#include "limits.h"

#include "timing.h"

#include <stdio.h>
#include <string.h>

enum { COPIES = 24, WORDS = 4 };

static const struct recipe mixes[] = {{"mixed, 8 units, 8 fuels", MIXED, 0, 8, 8},
                                      {"all fuel, 8 units, 8 fuels", ALL_FUEL, 0, 8, 8},
                                      {"all hours, 15 units", ALL_HOURS, 0, 15, 0},
                                      {"all gas, 8 units, 8 fuels", ALL_GAS, 0, 8, 8},
                                      {"all anodes, 64 units", ALL_ANODES, 0, 64, 0}};

static uint8_t copies[COPIES][LONGEST_BOOK];

/* What was read goes here, so that the compiler leaves no reading out. */
static volatile uint64_t kept;

/* Four sums, so that no addition waits for the one before. */
static void read_records(const uint8_t *book, size_t records)
{
    uint64_t sums[WORDS] = {0};
    for (size_t i = 0; i < records; i++)
        for (size_t j = 0; j < WORDS; j++) {
            uint64_t word;
            memcpy(&word, book + BOOK_LINE * i + sizeof word * j, sizeof word);
            sums[j] += word;
        }
    kept = sums[0] ^ sums[1] ^ sums[2] ^ sums[3];
}

static void read_one(const struct calls *calls, const struct job *job)
{
    (void)calls;
    read_records(job->book->book, job->book->records);
}

static void read_copies(const struct calls *calls, const struct job *job)
{
    (void)calls;
    for (size_t i = 0; i < COPIES; i++)
        read_records(copies[i], job->book->records);
}

static void wake_copies(const struct calls *calls, const struct job *job)
{
    uint8_t out[SIZE];
    for (size_t i = 0; i < COPIES; i++)
        calls->wake(copies[i], job->book->length, job->start, SIZE, job->budget, out, SIZE);
}

/* The reading calls neither library nor C, and both of its times are of the same work. */
static void tell(const char *name, const char *from, size_t records, struct times wake,
                 struct times reading)
{
    const double read = reading.library < reading.plain ? reading.library : reading.plain;
    const double parts = (double)records;
    printf("%-28s %-7s %8zu  %8.2f %8.2f %8.2f  %8.1f %8.1f\n", name, from, records,
           wake.library / parts, wake.plain / parts, read / parts, wake.library / read,
           wake.plain / read);
    fflush(stdout);
}

static void time_mix(struct bytes *b, struct recipe recipe)
{
    struct job job = begin(b, &recipe);
    job.budget = UINT32_MAX;
    tell(recipe.name, "cache", b->records, measure(do_one_wake, &job), measure(read_one, &job));
    recipe.records = MOST_RECORDS;
    job = begin(b, &recipe);
    job.budget = UINT32_MAX;
    for (size_t i = 0; i < COPIES; i++)
        memcpy(copies[i], b->book, b->length);
    tell(recipe.name, "memory", COPIES * b->records, measure(wake_copies, &job),
         measure(read_copies, &job));
}

/* In KiB, as the system tells it, 0 where it doesn't. */
static int find_last_cache(void)
{
    FILE *size = fopen("/sys/devices/system/cpu/cpu0/cache/index3/size", "r");
    int kib = 0;
    if (size == NULL)
        return 0;
    if (fscanf(size, "%dK", &kib) != 1)
        kib = 0;
    fclose(size);
    return kib;
}

void time_limits(struct bytes *b)
{
    printf("\na wake of all records, and the reading of their bytes alone; cache: one full book "
           "again and again;\nmemory: %d copies of a longest book by turns, %d MiB, the last cache "
           "having %d MiB (0: not told)\n",
           COPIES, COPIES * (LONGEST_BOOK >> 20), find_last_cache() >> 10);
    printf("%-28s %-7s %8s  %8s %8s %8s  %17s\n", "ns/record", "from", "records", "library", "C",
           "reading", "times the reading");
    printf("%-28s %-7s %8s  %8s %8s %8s  %8s %8s\n", "", "", "", "", "", "", "library", "C");
    for (size_t i = 0; i < sizeof mixes / sizeof *mixes; i++)
        time_mix(b, mixes[i]);
}
