/*
 * How the library and the plain C are timed on the same books in the same run. Both are called
 * through a pointer; their rounds alternate, so that both see the same machine; medians are told.
 */
#ifndef TIMING_H
#define TIMING_H

#include "books.h"
#include "wetherstep.h"

enum { SIZE = WETHERSTEP_CHECKPOINT_SIZE };

struct calls {
    uint64_t (*fresh)(const uint8_t *, size_t, uint8_t *, size_t);
    uint64_t (*wake)(const uint8_t *, size_t, const uint8_t *, size_t, uint32_t, uint8_t *, size_t);
    uint64_t (*report)(const uint8_t *, size_t, const uint8_t *, size_t, uint64_t *);
};

/* A piece of work on a book; the checkpoint `at` is the finished one, `start` the fresh one. */
struct job {
    const struct bytes *book;
    uint8_t start[SIZE], at[SIZE];
    uint32_t budget;
};

typedef void work(const struct calls *calls, const struct job *job);

/* A wake of the job's budget from `start`. */
work do_one_wake;

/* Makes the book, and the job on it with budget 0. */
struct job begin(struct bytes *b, const struct recipe *recipe);

/* The job goes on from this place. */
void start_at(struct job *job, uint32_t place);

/* The medians, in ns for one piece of work. */
struct times {
    double library, plain;
};

struct times measure(work *work, const struct job *job);

/* Says how many rounds the medians are of. */
void tell_rounds(void);

/* A table's head, and a row of it, whose work has so many parts. */
void head(const char *title, const char *each);
void row(const char *name, size_t records, struct times t, double parts);

#endif
