/* Writes fuel records at the ends of their ranges, and compares library and C on each. */
#include "compare_fuel.h"

#include "book_lines.h"
#include "compare_calls.h"

#include <stdio.h>
#include <stdlib.h>
#include <string.h>

enum { REASONS = 9, FLAGS = 8 };

static const struct recipe one = {"fuel", ALL_GAS, 1, UNLISTED, NO_FUEL};

static unsigned long judged[REASONS];

struct burned {
    size_t unit, fuel;
    uint32_t flags, month, amount, carbon;
};

static void write_ends(uint8_t *l, const struct burned *burned)
{
    memset(l, 0, BOOK_LINE);
    put(l, FUEL, 1);
    put(l + 1, burned->flags, 1);
    put(l + 2, number_of(burned->unit), 2);
    put(l + 4, number_of(burned->fuel), 2);
    put(l + 6, burned->month, 2);
    put(l + 8, burned->amount, 4);
    put(l + 12, burned->flags & 1 ? 38000 : 0, 4);
    put(l + 16, burned->carbon, 4);
}

static void compare_one(struct bytes *b, const struct burned *burned)
{
    struct out at = compare_fresh(b, one.name, SIZE);
    write_ends(b->book, burned);
    judged[wetherstep_reason(compare_record(b, one.name, 0).reply)]++;
    compare_wake(b, one.name, &at, SIZE, 1, SIZE);
    compare_report(b, one.name, &at, SIZE);
}

static void compare_ends(struct bytes *b, struct burned burned)
{
    static const uint32_t amounts[] = {0, 1, 99999999, 100000000, 100000001, UINT32_MAX};
    static const uint32_t carbons[] = {0,       1,       999999,  1000000,   1000001,
                                       3999999, 4000000, 4000001, UINT32_MAX};
    static const uint32_t months[] = {0, 1, 12, 13, 257, 65535};
    for (size_t i = 0; i < sizeof amounts / sizeof *amounts; i++)
        for (size_t j = 0; j < sizeof carbons / sizeof *carbons; j++)
            for (size_t k = 0; k < sizeof months / sizeof *months; k++) {
                burned.amount = amounts[i];
                burned.carbon = carbons[j];
                burned.month = months[k];
                compare_one(b, &burned);
            }
}

void compare_fuel(struct bytes *b)
{
    for (uint32_t rating = 2500; rating <= 2501; rating++)
        for (size_t unit = NO_MONITOR; unit <= WET; unit++)
            for (size_t fuel = 0; fuel < NO_FUEL; fuel++)
                for (uint32_t flags = 0; flags < FLAGS; flags++) {
                    make_book(b, &one);
                    write_unit_sorts(b);
                    write_fuel_sorts(b);
                    write_rating(b, unit, rating);
                    compare_ends(b, (struct burned){unit, fuel, flags, 0, 0, 0});
                }
}

void tell_fuel(void)
{
    static const unsigned due[] = {0, 1, 4, 6, 7};
    printf("fuel at the ends of its ranges, by reason:");
    for (size_t i = 0; i < sizeof due / sizeof *due; i++) {
        printf(" %u %lu", due[i], judged[due[i]]);
        if (judged[due[i]] == 0) {
            printf("\nnone with reason %u\n", due[i]);
            exit(1);
        }
    }
    printf("\n");
}
