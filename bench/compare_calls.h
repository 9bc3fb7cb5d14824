/*
 * Each call made twice, of the library and of the plain C. The program stops where they differ, and
 * tells the name that is given.
 */
#ifndef COMPARE_CALLS_H
#define COMPARE_CALLS_H

#include "books.h"
#include "wetherstep.h"

enum { ROOM = 128, SIZE = WETHERSTEP_CHECKPOINT_SIZE };

/* A buffer longer than any output, filled, so that a byte too many or too few shows. */
struct out {
    uint8_t bytes[ROOM];
};

struct out compare_fresh(const struct bytes *b, const char *name, size_t out_len);

/* How many records were gone through; the new checkpoint is left in `from` if there is one. */
uint32_t compare_wake(const struct bytes *b, const char *name, struct out *from, size_t from_len,
                      uint32_t budget, size_t out_len);

/* What a look at a record gives: the reply, and the masses of a record that counts. */
struct look {
    uint64_t reply, masses[WETHERSTEP_MASSES];
};

struct look compare_record(const struct bytes *b, const char *name, uint32_t index);

/* These give back the reply. */
uint64_t compare_report(const struct bytes *b, const char *name, const struct out *from,
                        size_t from_len);
uint64_t compare_left(const struct bytes *b, const char *name, const struct out *from,
                      size_t from_len);

/* Says how many calls were compared, and stops unless each call gave every number, reason, method
   and ledger that it can, reports each decision under each set of warming values, records with a
   low value and analysed gas each method that they can have, and some hour counted with moisture
   and some anodes. */
void tell_compared(void);

#endif
