/*
 * Molar volumes of gases, liquids and solids, right and wrong. A book is refused for a wrong one
 * whether a record uses it or not.
 */
#include "compare_volumes.h"

#include "compare_calls.h"
#include "compare_model.h"

#include <stdbool.h>
#include <stdio.h>
#include <stdlib.h>

enum { ALL_UP_TO = 30000 };

static const struct recipe refinery = {"volumes", REFINERY, 20, 4, NO_FUEL};

/* Fuel lines by their sort, refused and accepted. */
static unsigned long met[NO_FUEL][2];

static void make_refinery(struct bytes *b)
{
    make_book(b, &refinery);
    write_fuel_sorts(b);
}

/* Every call answers with this number, 0 or why the book is refused. */
static void compare_number(const struct bytes *b, struct out *at, unsigned number, size_t i)
{
    const bool is_read = number == 0;
    compare_fresh(b, refinery.name, SIZE);
    if (wetherstep_number(compare_record(b, refinery.name, 0).reply) != number ||
        wetherstep_number(compare_left(b, refinery.name, at, SIZE)) != number ||
        wetherstep_number(compare_report(b, refinery.name, at, SIZE)) != (is_read ? 40 : number) ||
        compare_wake(b, refinery.name, at, SIZE, UINT32_MAX, SIZE) != (is_read ? 20 : 0))
        stop_at(refinery.name, "a number", i);
}

static bool is_right(uint32_t volume)
{
    return volume == 0 || (volume >= 20000 && volume <= 27000);
}

static void compare_volume(struct bytes *b, const struct out *fresh, size_t fuel, uint32_t volume)
{
    struct out at = *fresh;
    write_volume(b, fuel, volume);
    compare_number(b, &at, is_right(volume) ? 0 : 23, volume);
    met[fuel][is_right(volume)]++;
}

/* Those whose lowest byte or two are right, and those next to the limits, on each fuel. */
static void compare_limits(struct bytes *b, uint64_t *row)
{
    static const uint32_t volumes[] = {
        0,     1,     19999, 20000, 20001, 23670,           24060,
        26999, 27000, 27001, 65536, 89596, 0x01000000 + 24060, UINT32_MAX};
    for (size_t fuel = 0; fuel < NO_FUEL; fuel++) {
        make_refinery(b);
        const struct out fresh = compare_fresh(b, refinery.name, SIZE);
        for (size_t i = 0; i < sizeof volumes / sizeof *volumes; i++) {
            compare_volume(b, &fresh, fuel, volumes[i]);
            if (is_right(volumes[i]))
                compare_modelled(b, refinery.name, row);
        }
    }
}

/* By turns on each fuel, the others as they were. */
static void compare_all(struct bytes *b)
{
    make_refinery(b);
    const struct out fresh = compare_fresh(b, refinery.name, SIZE);
    for (uint32_t volume = 0; volume <= ALL_UP_TO; volume++) {
        compare_volume(b, &fresh, volume % NO_FUEL, volume);
        write_volume(b, volume % NO_FUEL, 0);
    }
}

/* Behind a volume that is right the line is blank; a fault of a unit line is told first. */
static void compare_lines(struct bytes *b)
{
    make_refinery(b);
    struct out at = compare_fresh(b, refinery.name, SIZE);
    for (size_t fuel = 0; fuel < NO_FUEL; fuel++)
        for (size_t place = 24; place < BOOK_LINE; place++) {
            make_refinery(b);
            b->book[BOOK_LINE * (b->records + b->units + fuel) + place] = 1;
            compare_number(b, &at, 23, place);
        }
    make_refinery(b);
    write_volume(b, 0, 1);
    write_flags(b, 0, 2);
    compare_number(b, &at, 22, 0);
}

void compare_volumes(struct bytes *b)
{
    uint64_t row = 23;
    compare_limits(b, &row);
    compare_all(b);
    compare_lines(b);
}

void tell_volumes(void)
{
    unsigned long all[2] = {0};
    for (size_t fuel = 0; fuel < NO_FUEL; fuel++)
        for (int is_accepted = 0; is_accepted < 2; is_accepted++) {
            all[is_accepted] += met[fuel][is_accepted];
            if (met[fuel][is_accepted] == 0) {
                printf("no volume of a fuel of sort %zu is %s\n", fuel,
                       is_accepted ? "accepted" : "refused");
                exit(1);
            }
        }
    printf("molar volumes: %lu accepted, %lu refused\n", all[1], all[0]);
}
