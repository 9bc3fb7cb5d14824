/*
 * Anodes by the requirements: a line byte by byte, each range by itself, and a multiplication by
 * 366.4 of which the fraction is taken by the last digit.
 */
#include "model_anodes.h"

#include "model_lines.h"

#include <stdbool.h>

static bool has_blanks(const uint8_t *l)
{
    for (size_t at = 1; at < BOOK_LINE; at++)
        if ((at == 1 || at == 4 || at == 5 || at >= 22) && l[at] != 0)
            return false;
    return true;
}

enum { MONTH, METAL, USE, SULPHUR, ASH, OTHERS, FIELDS };

static const struct {
    size_t at, bytes;
    uint64_t least, most;
} fields[FIELDS] = {
    [MONTH] = {6, 2, 1, 12},      [METAL] = {8, 4, 0, 100000000}, [USE] = {12, 4, 0, 1000},
    [SULPHUR] = {16, 2, 0, 10000}, [ASH] = {18, 2, 0, 10000},      [OTHERS] = {20, 2, 0, 10000},
};

static uint64_t field(const uint8_t *l, int i)
{
    return number_at(l, fields[i].at, fields[i].bytes);
}

static bool is_in_range(const uint8_t *l)
{
    for (int i = 0; i < FIELDS; i++)
        if (field(l, i) < fields[i].least || field(l, i) > fields[i].most)
            return false;
    return field(l, SULPHUR) + field(l, ASH) + field(l, OTHERS) <= 10000;
}

unsigned reason_of_anodes(const struct bytes *b, size_t i)
{
    const uint8_t *l = b->book + BOOK_LINE * i;
    if (!has_blanks(l))
        return 1;
    if (unit_line_of(b, l) == NULL)
        return 2;
    return is_in_range(l) ? 0 : 4;
}

/* 366.4 times a number is 366 times it, 4 for each ten of it, and 0.4 times its last digit. */
struct anodes_co2 co2_of_anodes(const uint8_t *l)
{
    static const uint64_t rounded[10] = {0, 0, 1, 1, 2, 2, 2, 3, 3, 4}; /* of 0.0, 0.4 .. 3.6 */
    const uint64_t pure = 10000 - field(l, SULPHUR) - field(l, ASH) - field(l, OTHERS);
    const uint64_t carbon = field(l, METAL) * field(l, USE) * pure, digit = carbon % 10;
    return (struct anodes_co2){(unsigned)(4 * digit % 10),
                               366 * carbon + 4 * (carbon / 10) + rounded[digit]};
}
