/* What was met of hours and anodes that stand before. */
#ifndef COMPARE_TALLIES_H
#define COMPARE_TALLIES_H

#include <stdbool.h>
#include <stdint.h>

/* The earlier records with a record's unit and number: a bit for the reason of each that is of its
   kind, and whether one is of the other kind. */
struct before {
    unsigned reasons;
    bool is_other_kind;
};

/* A record of a kind that can be repeated. It has this reason as the only record of its book. */
void count_judged(uint8_t kind, unsigned reason, struct before before);

/* A wake has come to a repeat, and went through the last one that it repeats, or didn't. */
void count_repeat(uint8_t kind, bool is_in_wake);

/* Says what was met, and stops unless that is every reason that a record which stands before can
   have, whatever can have become of the earlier one, in the same wake or before it, and hours and
   anodes of one unit and number that don't repeat each other. */
void tell_tallies(void);

#endif
