/*
 * Hours and anodes that stand before: pairs of every sort, drawn books and full ones, each held
 * against the model, and pairs against what is said of them here too.
 */
#include "compare_repeats.h"

#include "compare_calls.h"
#include "compare_model.h"

#include <stdbool.h>

enum { DRAWN = 10000 };

/* How a record differs from a sound one. SHARE: of 0.1 percent moisture or 0.01 percent sulphur,
   which is a fault of hours alone, and on a dry unit none. EXCESS: a reading that is no number, or
   a kg too much of metal. */
enum fault { NO_FAULT, STRAY_BYTE, SHARE, EXCESS, FAULTS };

/* A small book, of hours alone or mixed, with a unit of each sort. */
static void make_small(struct bytes *b, enum mix mix, size_t records)
{
    const struct recipe recipe = {"small", mix, records, UNLISTED, 4};
    make_book(b, &recipe);
    write_unit_sorts(b);
}

/* An hour of 12.5 percent and 2,000,000 scf/h, or 400 g of anodes for each of 2,000,000 kg, but for
   its fault. */
struct sort {
    uint8_t kind;
    size_t unit;
    uint32_t number;
    enum fault fault;
};

static void write_sort(struct bytes *b, size_t i, struct sort sort)
{
    const uint32_t share = sort.fault == SHARE;
    const bool has_excess = sort.fault == EXCESS;
    const struct hour hour = {sort.unit, sort.number, has_excess ? 0x7fc00000 : 0x41480000,
                              0x49f42400, share};
    const struct anodes anodes = {sort.unit, sort.number, has_excess ? 100000001 : 2000000, 400,
                                  {share, 0, 0}};
    if (sort.kind == HOUR)
        write_readings(b, i, &hour);
    else
        write_consumed(b, i, &anodes);
    b->book[BOOK_LINE * i + BOOK_LINE - 1] = sort.fault == STRAY_BYTE;
}

/* What it has where it doesn't stand before. */
static unsigned reason_of(struct sort sort)
{
    const bool is_hour = sort.kind == HOUR;
    const uint32_t last = is_hour ? LAST_HOUR : LAST_MONTH;
    if (sort.fault == STRAY_BYTE)
        return 1;
    if (sort.unit == UNLISTED)
        return 2;
    if (is_hour && sort.fault == SHARE && sort.unit != DRY)
        return 1;
    if (sort.number < 1 || sort.number > last || sort.fault == EXCESS)
        return 4;
    return is_hour && sort.unit == NO_MONITOR ? 5 : 0;
}

/* An earlier line beside a record: it has a fault, or a byte changed, and is repeated or isn't.
   Byte 0 becomes the other kind, 0 or 6, 1 or 7, 3 or 5, 130 or 132. */
static const struct twin {
    enum fault fault;
    size_t at;
    uint8_t change;
    bool is_same;
} twins[] = {
    {NO_FAULT, 0, 0, true},                 {STRAY_BYTE, 0, 0, true},
    {SHARE, 0, 0, true},                    {EXCESS, 0, 0, true},
    {NO_FAULT, 1, 1, true},                 {NO_FAULT, 4, 1, true},
    {NO_FAULT, 5, 1, true},                 {NO_FAULT, 8, 1, true},
    {NO_FAULT, 0, HOUR ^ ANODES, false},    {NO_FAULT, 0, 2, false},
    {NO_FAULT, 0, 3, false},                {NO_FAULT, 0, 1, false},
    {NO_FAULT, 0, 128, false},              {NO_FAULT, 2, 20, false},
    {NO_FAULT, 3, 1, false},                {NO_FAULT, 6, 2, false},
    {NO_FAULT, 7, 1, false},
};

/* Records one after the other, at both ends of the book, and between others, by turns among hours
   alone, for which a wake may make a table, and in a mixed book. */
static void compare_twins(struct bytes *b, struct sort sort, uint64_t *row)
{
    static const size_t places[][2] = {{0, 1}, {0, 9}, {3, 6}, {8, 9}};
    const unsigned alone = reason_of(sort);
    for (size_t i = 0; i < sizeof twins / sizeof *twins; i++)
        for (size_t j = 0; j < sizeof places / sizeof *places; j++) {
            const size_t early = places[j][0], late = places[j][1];
            make_small(b, j % 2 == 0 ? ALL_HOURS : MIXED, 10);
            write_sort(b, early, (struct sort){sort.kind, sort.unit, sort.number, twins[i].fault});
            write_sort(b, late, sort);
            b->book[BOOK_LINE * early + twins[i].at] ^= twins[i].change;
            compare_modelled(b, "twins", row);
            if (reason_due(late) != (alone != 0 ? alone : twins[i].is_same ? REPEATED : 0))
                stop_at("twins", "the reason", late);
        }
}

/* Hours and months alike: the ends of both ranges, and what is past them. */
static const uint32_t numbers[] = {0, 1, 12, 13, 257, 8784, 8785, 65535};
enum { NUMBERS = sizeof numbers / sizeof *numbers };

static const uint8_t kinds[2] = {HOUR, ANODES};

static void compare_sorts(struct bytes *b, uint8_t kind, uint64_t *row)
{
    for (enum unit_sort unit = 0; unit < UNIT_SORTS; unit++)
        for (size_t i = 0; i < NUMBERS; i++)
            for (enum fault fault = 0; fault < FAULTS; fault++) {
                const struct sort sort = {kind, unit, numbers[i], fault};
                compare_twins(b, sort, row);
            }
}

/* An hour or anodes of few, so that most stand before; some get another kind, and some lines stay
   as they are. */
static void draw_record(struct bytes *b, size_t i, uint64_t *row)
{
    const uint32_t unit = draw(row, UNIT_SORTS), number = draw(row, NUMBERS);
    const uint32_t fault = draw(row, 2 * FAULTS), kind = draw(row, 2);
    if (draw(row, 4) == 0)
        return;
    write_sort(b, i, (struct sort){kinds[kind], unit, numbers[number],
                                   fault < FAULTS ? fault : NO_FAULT});
    if (draw(row, 8) == 0)
        b->book[BOOK_LINE * i] = (uint8_t)draw(row, 6);
}

static void compare_drawn(struct bytes *b, uint64_t *row)
{
    for (int i = 0; i < DRAWN; i++) {
        make_small(b, i % 2 == 0 ? ALL_HOURS : REFINERY, 1 + draw(row, i % 50 == 0 ? 300 : 30));
        for (size_t j = 0; j < b->records; j++)
            draw_record(b, j, row);
        compare_modelled(b, "drawn", row);
    }
}

/* With as many units as there can be. */
static void compare_full(struct bytes *b, uint64_t *row)
{
    static const struct recipe books[] = {{"full, repeated", REPEATED_HOURS, 0, 64, 0},
                                          {"full, mixed", MIXED, 0, 64, 64},
                                          {"full, anodes", ALL_ANODES, 0, 64, 0},
                                          {"full, smelter", SMELTER, 0, 64, 64},
                                          {"full, refinery", REFINERY, 0, 64, 64}};
    for (size_t i = 0; i < sizeof books / sizeof *books; i++) {
        make_book(b, &books[i]);
        compare_modelled(b, books[i].name, row);
    }
}

/* The last number of the last unit fills a book, and stands at both ends of another. */
static void compare_last(struct bytes *b, uint8_t kind, uint64_t *row)
{
    static const struct recipe full = {"full, last", ALL_HOURS, 0, 64, 0};
    const struct sort last = {kind, 63, kind == HOUR ? LAST_HOUR : LAST_MONTH, NO_FAULT};
    make_book(b, &full);
    write_sort(b, 0, last);
    write_sort(b, b->records - 1, last);
    compare_modelled(b, full.name, row);
    for (size_t i = 0; i < b->records; i++)
        write_sort(b, i, last);
    compare_modelled(b, full.name, row);
}

/* A checkpoint is sound whose reason is one of eight. */
static void compare_named(struct bytes *b)
{
    make_small(b, ALL_HOURS, 10);
    for (size_t i = 0; i < 2; i++)
        write_sort(b, i, (struct sort){HOUR, WET, 1, NO_FAULT});
    struct out two = compare_fresh(b, "named", SIZE);
    compare_wake(b, "named", &two, SIZE, 2, SIZE);
    for (unsigned reason = 0; reason < 256; reason++) {
        const unsigned number = reason >= 1 && reason <= REPEATED ? 0 : 31;
        struct out at = two;
        at.bytes[REASON_AT] = (uint8_t)reason;
        if (wetherstep_number(compare_left(b, "named", &at, SIZE)) != number ||
            wetherstep_number(compare_report(b, "named", &at, SIZE)) != (number ? number : 40) ||
            compare_wake(b, "named", &at, SIZE, UINT32_MAX, SIZE) != (number ? 0 : 8))
            stop_at("named", "the reason in a checkpoint", reason);
        compare_report(b, "named", &at, SIZE);
    }
}

void compare_repeats(struct bytes *b)
{
    uint64_t row = 13;
    for (int i = 0; i < 2; i++) {
        compare_sorts(b, kinds[i], &row);
        compare_last(b, kinds[i], &row);
    }
    compare_drawn(b, &row);
    compare_full(b, &row);
    compare_named(b);
}
