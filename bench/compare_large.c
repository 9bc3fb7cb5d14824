/*
 * Books of 65,536 bytes and a line more, and of the longest, a line less and a line more. Wakes
 * start before and past the places that a book of 65,536 bytes has, and each way through a book
 * comes to one last checkpoint.
 */
#include "compare_large.h"

#include "compare_calls.h"
#include "compare_far.h"
#include "compare_model.h"

#include <stdio.h>
#include <stdlib.h>
#include <string.h>

enum { LENGTH_AT = 80, DAMAGED_LINES = 60, DAMAGED_CHECKPOINTS = 60, PLACES = 16 };

static const size_t lengths[] = {FULL_BOOK, FULL_BOOK + BOOK_LINE, LONGEST_BOOK - BOOK_LINE,
                                 LONGEST_BOOK, LONGEST_BOOK + BOOK_LINE};

static const struct recipe kinds[] = {
    {"large, mixed", MIXED, 0, 12, 8},           {"large, smelter", SMELTER, 0, 64, 64},
    {"large, refinery", REFINERY, 0, 8, 8},      {"large, site's hours", SITE_HOURS, 0, 12, 0},
    {"large, hours", ALL_HOURS, 0, 15, 0},       {"large, repeated", REPEATED_HOURS, 0, 12, 0},
    {"large, dry hours", DRY_HOURS, 0, 64, 0},   {"large, anodes", ALL_ANODES, 0, 64, 0},
};

/* Books that were opened and that were too long, records by place, and checkpoints of 65,536 bytes
   that were refused for a longer book. */
static unsigned long opened, too_long, records[2], grown;

/* About the last places of a book of 65,536 bytes, about 2^16, and about the end. */
static size_t list_places(uint32_t n, uint32_t places[PLACES])
{
    const uint32_t all[PLACES] = {0,     1,     1000,     2046,    2047,   2048,  2049,  65535,
                                  65536, 65537, n - 1000, n - 100, n - 10, n - 3, n - 1, n};
    size_t count = 0;
    for (size_t i = 0; i < PLACES; i++)
        if (all[i] <= n && (count == 0 || places[count - 1] < all[i]))
            places[count++] = all[i];
    return count;
}

static void compare_place(const struct bytes *b, const char *name, const struct out *fresh,
                          const struct out *end, uint32_t place)
{
    static const uint32_t budgets[] = {0, 1, 2, 5, 6, 7, 10, 100, 1000};
    struct out at = *fresh;
    compare_wake(b, name, &at, SIZE, place, SIZE);
    compare_left(b, name, &at, SIZE);
    compare_report(b, name, &at, SIZE);
    compare_record(b, name, place);
    records[BOOK_LINE * place >= FULL_BOOK]++;
    for (size_t i = 0; i < sizeof budgets / sizeof *budgets; i++) {
        struct out after = at;
        compare_wake(b, name, &after, SIZE, budgets[i], SIZE);
    }
    compare_wake(b, name, &at, SIZE, UINT32_MAX, SIZE);
    if (memcmp(&at, end, sizeof at) != 0)
        stop_at(name, "the last checkpoint, from the place", place);
}

/* One or two bytes of a line changed: of the last records or any, of the other lines, or of the
   trailer. */
static void compare_damaged_line(struct bytes *b, const char *name, const struct out *at,
                                 uint64_t *row)
{
    const size_t n = b->records, lines = b->length / BOOK_LINE;
    const size_t choices[4] = {n - 1 - draw(row, 20), draw(row, (uint32_t)n),
                               n + draw(row, (uint32_t)(lines - n)), lines - 1};
    const size_t i = choices[draw(row, 4)];
    uint8_t *l = b->book + BOOK_LINE * i, before[BOOK_LINE];
    struct out after = *at;
    memcpy(before, l, BOOK_LINE);
    for (uint32_t more = 1 + draw(row, 2); more != 0; more--)
        damage(l, BOOK_LINE, row);
    compare_fresh(b, name, SIZE);
    compare_wake(b, name, &after, SIZE, draw(row, 20), SIZE);
    compare_report(b, name, &after, SIZE);
    compare_left(b, name, &after, SIZE);
    compare_record(b, name, (uint32_t)i);
    memcpy(l, before, BOOK_LINE);
}

static void compare_damages(struct bytes *b, const char *name, const struct out *fresh,
                            uint64_t *row)
{
    struct out at = *fresh;
    compare_wake(b, name, &at, SIZE, (uint32_t)b->records - 10, SIZE);
    for (int i = 0; i < DAMAGED_LINES; i++)
        compare_damaged_line(b, name, &at, row);
    for (int i = 0; i < DAMAGED_CHECKPOINTS; i++) {
        struct out damaged = at;
        damage(damaged.bytes, SIZE, row);
        compare_left(b, name, &damaged, SIZE);
        compare_report(b, name, &damaged, SIZE);
        compare_wake(b, name, &damaged, SIZE, draw(row, 10), SIZE);
    }
}

/* A checkpoint of the book while it had 65,536 bytes is refused, unless it has the length of this
   one: it then stands for the same records. */
static void compare_grown(const struct bytes *b, const char *name, const struct out *old)
{
    const uint32_t length = (uint32_t)b->length;
    struct out at = *old;
    if (wetherstep_number(compare_left(b, name, &at, SIZE)) != WETHERSTEP_CHECKPOINT_UNSOUND)
        stop_at(name, "a shorter book's checkpoint, beside", b->records);
    compare_report(b, name, &at, SIZE);
    compare_wake(b, name, &at, SIZE, 1, SIZE);
    grown++;
    memcpy(at.bytes + LENGTH_AT, &length, sizeof length);
    compare_left(b, name, &at, SIZE);
    compare_wake(b, name, &at, SIZE, 100, SIZE);
    compare_wake(b, name, &at, SIZE, UINT32_MAX, SIZE);
}

static void compare_opened(struct bytes *b, const char *name, const struct out *old, uint64_t *row)
{
    uint32_t places[PLACES];
    const size_t count = list_places((uint32_t)b->records, places);
    const struct out fresh = compare_fresh(b, name, SIZE);
    struct out end = fresh;
    compare_wake(b, name, &end, SIZE, UINT32_MAX, SIZE);
    compare_report(b, name, &end, SIZE);
    for (size_t i = 0; i < count; i++)
        compare_place(b, name, &fresh, &end, places[i]);
    compare_record(b, name, UINT32_MAX);
    compare_damages(b, name, &fresh, row);
    if (b->length > FULL_BOOK)
        compare_grown(b, name, old);
    opened++;
}

static void compare_too_long(const struct bytes *b, const char *name, const struct out *old)
{
    struct out at = *old;
    const uint64_t replies[3] = {compare_left(b, name, &at, SIZE),
                                 compare_report(b, name, &at, SIZE),
                                 compare_record(b, name, 0).reply};
    compare_fresh(b, name, SIZE);
    compare_wake(b, name, &at, SIZE, UINT32_MAX, SIZE);
    for (int i = 0; i < 3; i++)
        if (replies[i] != WETHERSTEP_BOOK_LENGTH)
            stop_at(name, "the length past that", b->records);
    too_long++;
}

static void compare_lengths_of(struct bytes *b, const struct recipe *kind, uint64_t *row)
{
    struct out old = {{0}};
    for (size_t i = 0; i < sizeof lengths / sizeof *lengths; i++) {
        struct recipe recipe = *kind;
        recipe.records = lengths[i] / BOOK_LINE - recipe.units - recipe.fuels - 1;
        make_book(b, &recipe);
        b->book[in_trailer(b, SET_AT)] = (uint8_t)(i % WARMING_SETS);
        if (lengths[i] > LONGEST_BOOK)
            compare_too_long(b, kind->name, &old);
        else
            compare_opened(b, kind->name, &old, row);
        if (lengths[i] == FULL_BOOK) {
            old = compare_fresh(b, kind->name, SIZE);
            compare_wake(b, kind->name, &old, SIZE, UINT32_MAX, SIZE);
        }
    }
}

void compare_large(struct bytes *b)
{
    uint64_t row = 19;
    for (size_t i = 0; i < sizeof kinds / sizeof *kinds; i++)
        compare_lengths_of(b, &kinds[i], &row);
    compare_far(b);
}

void tell_large(void)
{
    if (opened == 0 || too_long == 0 || records[0] == 0 || records[1] == 0 || grown == 0) {
        printf("%lu books opened, %lu too long; %lu places before byte %d, %lu past it; %lu "
               "checkpoints of books that have grown\n",
               opened, too_long, records[0], FULL_BOOK, records[1], grown);
        exit(1);
    }
    printf("books about %d and about %d bytes: %lu opened, %lu refused for a line too many; wakes "
           "from %lu places before byte %d, %lu past it; %lu checkpoints of books that have grown "
           "refused\n",
           FULL_BOOK, LONGEST_BOOK, opened, too_long, records[0], FULL_BOOK, records[1], grown);
    tell_far();
}
