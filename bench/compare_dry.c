/*
 * Hours of a unit without a monitor, of a wet and a dry one, and of one that isn't listed. Library
 * and C are compared on each, and the reasons that were met are held against the requirements.
 */
#include "compare_dry.h"

#include "compare_calls.h"

#include <stdio.h>
#include <stdlib.h>
#include <string.h>

enum { DRAWN = 20000 };

static const char *const sorts[UNIT_SORTS] = {"without a monitor", "wet", "dry", "unlisted"};
static const struct recipe one_hour = {"hours", ALL_HOURS, 1, UNLISTED, 0};

static const uint32_t moistures[] = {0, 1, 500, 999, 1000, 1001, 65535};
enum { MOISTURES = sizeof moistures / sizeof *moistures };

/* The reasons that hours had, by unit and moisture: bit 0 is set if one counted. */
static unsigned met[UNIT_SORTS][MOISTURES];

/* Hours at the edges, set aside and not; drawn halves of R, by whether the even number is above. */
static unsigned long judged[2], halves[2];

static uint32_t bits_of(float value)
{
    uint32_t bits;
    memcpy(&bits, &value, sizeof bits);
    return bits;
}

/* Every call that goes by the book's one record. Its reason, 0 if it counts. */
static unsigned compare_hour(const struct bytes *b)
{
    struct out at = compare_fresh(b, one_hour.name, SIZE);
    unsigned reason = wetherstep_reason(compare_record(b, one_hour.name, 0).reply);
    compare_wake(b, one_hour.name, &at, SIZE, 1, SIZE);
    compare_report(b, one_hour.name, &at, SIZE);
    return reason;
}

static void compare_edge(const struct bytes *b, enum unit_sort sort, size_t m)
{
    unsigned reason = compare_hour(b);
    met[sort][m] |= 1u << reason;
    judged[reason == 0]++;
}

/* Zeros, subnormals, halves of R under some of the multiples, limits and what is beyond them. */
static void compare_readings(struct bytes *b, enum unit_sort sort, size_t m)
{
    static const uint32_t percents[] = {
        0x00000000, 0x80000000, 0x00000001, 0x007fffff, 0x3d800000 /* 0.0625 */,
        0x3e000000 /* 0.125 */, 0x3ec00000 /* 0.375 */, 0x3f000000 /* 0.5 */,
        0x3fc00000 /* 1.5 */, 0x41480000 /* 12.5 */, 0x42c80000 /* 100 */, 0x42c80001,
        0x7f800000 /* infinite */, 0x7fc00000 /* NaN */, 0x80000001, 0xbf800000, 0xff800000};
    static const uint32_t flows[] = {
        0x00000000, 0x80000000, 0x00000001, 0x007fffff, 0x3f800000 /* 1 */, 0x40400000 /* 3 */,
        0x47c35010 /* 100,000.125 */, 0x49f42400 /* 2,000,000 */,
        0x4e6e6b28 /* 1,000,000,000 */, 0x4e6e6b29, 0x7f800000, 0x7fc00000, 0x80000001,
        0xbf800000, 0xff800000};
    for (size_t i = 0; i < sizeof percents / sizeof *percents; i++)
        for (size_t j = 0; j < sizeof flows / sizeof *flows; j++) {
            const struct hour hour = {sort, 1, percents[i], flows[j], moistures[m]};
            write_readings(b, 0, &hour);
            compare_edge(b, sort, m);
        }
}

/* Numbers about the ends of their range, and each byte that has to be 0 on every unit. */
static void compare_bytes(struct bytes *b, enum unit_sort sort, size_t m)
{
    static const uint32_t numbers[] = {0, 1, 8784, 8785, 65535};
    for (size_t i = 0; i < sizeof numbers / sizeof *numbers; i++) {
        const struct hour hour = {sort, numbers[i], 0x41480000, 0x49f42400, moistures[m]};
        write_readings(b, 0, &hour);
        compare_edge(b, sort, m);
        for (size_t at = 1; at < BOOK_LINE; at++)
            if (at == 1 || at == 4 || at == 5 || at >= 18) {
                write_readings(b, 0, &hour);
                b->book[at] = 1;
                compare_edge(b, sort, m);
            }
    }
}

/* Percents in sixteenths and flows in quarters: of a whole number in 64ths many are halves. */
static void compare_halves(struct bytes *b)
{
    uint64_t row = 11;
    for (int i = 0; i < DRAWN; i++) {
        const uint32_t percent = draw(&row, 1601), flow = draw(&row, 4000001);
        const struct hour hour = {DRY, 1, bits_of((float)percent / 16), bits_of((float)flow / 4),
                                  draw(&row, 1001)};
        const uint64_t parts = (uint64_t)percent * flow * (1000 - hour.moisture);
        if (parts % 64 == 32)
            halves[parts / 64 % 2]++;
        write_readings(b, 0, &hour);
        compare_hour(b);
    }
}

void compare_dry(struct bytes *b)
{
    make_book(b, &one_hour);
    write_unit_sorts(b);
    for (enum unit_sort sort = 0; sort < UNIT_SORTS; sort++)
        for (size_t m = 0; m < MOISTURES; m++) {
            compare_readings(b, sort, m);
            compare_bytes(b, sort, m);
        }
    compare_halves(b);
}

/* Every hour above has one of these reasons, and each of them is some hour's. */
static unsigned due(enum unit_sort sort, uint32_t moisture)
{
    enum { COUNTS = 1 << 0, FORM = 1 << 1, UNIT = 1 << 2, RANGE = 1 << 4, MONITOR = 1 << 5 };
    if (sort == UNLISTED)
        return FORM | UNIT;
    if (sort != DRY && moisture != 0)
        return FORM;
    if (sort == NO_MONITOR)
        return FORM | RANGE | MONITOR;
    return FORM | RANGE | (moisture <= 1000 ? COUNTS : 0);
}

void tell_dry(void)
{
    for (enum unit_sort sort = 0; sort < UNIT_SORTS; sort++)
        for (size_t m = 0; m < MOISTURES; m++)
            if (met[sort][m] != due(sort, moistures[m])) {
                printf("hours of a unit that is %s, with moisture %u, have reasons %#x, not %#x\n",
                       sorts[sort], (unsigned)moistures[m], met[sort][m],
                       due(sort, moistures[m]));
                exit(1);
            }
    if (halves[0] == 0 || halves[1] == 0) {
        printf("halves of R have gone %lu times down, %lu times up\n", halves[0], halves[1]);
        exit(1);
    }
    printf("hours at the edges of moisture: %lu that count, %lu set aside, by every reason due\n"
           "halves of R among drawn dry hours: %lu to the even number below, %lu above\n",
           judged[1], judged[0], halves[0], halves[1]);
}
