/* Takes the times. */
#include "timing.h"

#include "plain.h"

#include <stdio.h>
#include <stdlib.h>
#include <string.h>
#include <time.h>

/* What takes longer than LONG_NS is timed in fewer rounds, so that a run stays short. */
enum { ROUNDS = 201, FEW_ROUNDS = 61, SAMPLE_NS = 200000, LONG_NS = 1000000 };

static const struct calls library = {wetherstep_fresh, wetherstep_wake, wetherstep_report};
static const struct calls plain = {plain_fresh, plain_wake, plain_report};

void do_one_wake(const struct calls *calls, const struct job *job)
{
    uint8_t out[SIZE];
    calls->wake(job->book->book, job->book->length, job->start, SIZE, job->budget, out, SIZE);
}

struct job begin(struct bytes *b, const struct recipe *recipe)
{
    struct job job = {b, {0}, {0}, 0};
    make_book(b, recipe);
    plain_fresh(b->book, b->length, job.start, SIZE);
    plain_wake(b->book, b->length, job.start, SIZE, UINT32_MAX, job.at, SIZE);
    return job;
}

void start_at(struct job *job, uint32_t place)
{
    const struct bytes *b = job->book;
    uint8_t fresh[SIZE];
    plain_fresh(b->book, b->length, fresh, SIZE);
    plain_wake(b->book, b->length, fresh, SIZE, place, job->start, SIZE);
}

static double now_ns(void)
{
    struct timespec t;
    clock_gettime(CLOCK_MONOTONIC, &t);
    return 1e9 * (double)t.tv_sec + (double)t.tv_nsec;
}

static double time_work(work *work, const struct calls *calls, const struct job *job, int repeats)
{
    double from = now_ns();
    for (int i = 0; i < repeats; i++)
        work(calls, job);
    return (now_ns() - from) / repeats;
}

static int by_size(const void *one, const void *two)
{
    double a = *(const double *)one, b = *(const double *)two;
    return (a > b) - (a < b);
}

struct times measure(work *work, const struct job *job)
{
    static double one[ROUNDS], two[ROUNDS];
    const double once = time_work(work, &plain, job, 3);
    const int repeats = once < SAMPLE_NS ? (int)(SAMPLE_NS / (once + 1)) + 1 : 1;
    const int rounds = once < LONG_NS ? ROUNDS : FEW_ROUNDS;
    for (int i = 0; i < rounds; i++) {
        /* Each goes first in every second round. */
        if (i % 2 == 0)
            one[i] = time_work(work, &library, job, repeats);
        two[i] = time_work(work, &plain, job, repeats);
        if (i % 2 != 0)
            one[i] = time_work(work, &library, job, repeats);
    }
    qsort(one, (size_t)rounds, sizeof *one, by_size);
    qsort(two, (size_t)rounds, sizeof *two, by_size);
    return (struct times){one[rounds / 2], two[rounds / 2]};
}

void tell_rounds(void)
{
    printf("medians of %d rounds, of %d where a piece of work takes over %d ms, library and C by "
           "turns; the book in cache; no buffer is cleared before a call\n",
           ROUNDS, FEW_ROUNDS, LONG_NS / 1000000);
}

void head(const char *title, const char *each)
{
    printf("\n%-46s %8s  %10s  %10s  %s\n", title, "records", "library", "C", "library / C");
    printf("%-46s %8s  %10s  %10s\n", "", "", each, each);
}

void row(const char *name, size_t records, struct times t, double parts)
{
    printf("%-46s %8zu  %10.1f  %10.1f  %.2f\n", name, records, t.library / parts, t.plain / parts,
           t.library / t.plain);
    fflush(stdout);
}
