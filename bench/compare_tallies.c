/* Counts what was met of hours and anodes that stand before. */
#include "compare_tallies.h"

#include "books.h"

#include <stdio.h>
#include <stdlib.h>

enum { REASONS = 9 };

/* Of each kind that can be repeated: repeats by what became of a record that they repeat, and by
   whether the wake went through the last of those; records that stand before and have a lower
   reason, by that; and records that count after the other kind with their unit and number. */
static struct tally {
    unsigned long repeats[REASONS], is_in_wake[2], lower[REASONS], beside;
} tallies[ANODES + 1];

void count_judged(uint8_t kind, unsigned reason, struct before before)
{
    struct tally *tally = &tallies[kind];
    if (reason != 0) {
        tally->lower[reason] += before.reasons != 0;
        return;
    }
    tally->beside += before.reasons == 0 && before.is_other_kind;
    for (unsigned i = 0; i < REASONS; i++)
        tally->repeats[i] += before.reasons >> i & 1;
}

void count_repeat(uint8_t kind, bool is_in_wake)
{
    tallies[kind].is_in_wake[is_in_wake]++;
}

/* A record with reason 2 or 5 isn't repeated: its repeat has that reason too, by the same unit. */
static const struct {
    uint8_t kind;
    const char *name, *other;
    bool can_be_repeated[REASONS], can_be_lower[REASONS];
} kinds[] = {
    {HOUR, "hours", "anodes",
     {[0] = true, [1] = true, [4] = true, [8] = true},
     {[1] = true, [2] = true, [4] = true, [5] = true}},
    {ANODES, "anodes", "an hour",
     {[0] = true, [1] = true, [4] = true, [8] = true},
     {[1] = true, [2] = true, [4] = true}},
};

static void see_tally(const struct tally *tally, size_t kind)
{
    for (unsigned i = 0; i < REASONS; i++)
        if ((tally->repeats[i] != 0) != kinds[kind].can_be_repeated[i] ||
            (tally->lower[i] != 0) != kinds[kind].can_be_lower[i]) {
            printf("of reason %u are %lu %s that are repeated, %lu that stand before\n", i,
                   tally->repeats[i], kinds[kind].name, tally->lower[i]);
            exit(1);
        }
    if (tally->is_in_wake[0] == 0 || tally->is_in_wake[1] == 0 || tally->beside == 0) {
        printf("%lu %s repeated in a wake, %lu in a later one; %lu counted after %s\n",
               tally->is_in_wake[1], kinds[kind].name, tally->is_in_wake[0], tally->beside,
               kinds[kind].other);
        exit(1);
    }
}

static void tell_tally(const struct tally *tally, size_t kind)
{
    const char *name = kinds[kind].name;
    printf("%s set aside with reason 8: after one that counts %lu, with reason 1 %lu, 4 %lu, 8 "
           "%lu; met in that one's wake %lu times, in a later one %lu\n"
           "%s that stand before and have a lower reason:",
           name, tally->repeats[0], tally->repeats[1], tally->repeats[4], tally->repeats[8],
           tally->is_in_wake[1], tally->is_in_wake[0], name);
    for (unsigned i = 0; i < REASONS; i++)
        if (kinds[kind].can_be_lower[i])
            printf(" %u %lu", i, tally->lower[i]);
    printf("; that count after %s of their unit and number: %lu\n", kinds[kind].other,
           tally->beside);
}

void tell_tallies(void)
{
    for (size_t i = 0; i < sizeof kinds / sizeof *kinds; i++) {
        see_tally(&tallies[kinds[i].kind], i);
        tell_tally(&tallies[kinds[i].kind], i);
    }
}
