/*
 * Analysed gas by the requirements: a line byte by byte, each range by itself, and CO2 as on paper,
 * by decimal digits: a long multiplication, a long division, and a half by the last digit.
 */
#include "model_gas.h"

#include "model_lines.h"

#include <stdbool.h>

enum { HEAT_TOLD = 1, LOW_HEAT_TOLD = 1 | 4 }; /* all flags but 0 that there are */
enum { NATURAL = 1, GASEOUS = 3 };             /* a class and a kind of fuels */
enum { DIGITS = 24 };                          /* the largest product, 7.3 * 10^22, has 23 */

enum { MONTH, AMOUNT, CARBON, WEIGHT, FIELDS };

static const struct {
    size_t at, bytes;
    uint64_t least, most;
} fields[FIELDS] = {
    [MONTH] = {6, 2, 1, 12},
    [AMOUNT] = {8, 4, 0, 100000000},
    [CARBON] = {16, 4, 0, 1000000},
    [WEIGHT] = {20, 4, 1, 200000},
};

static uint64_t field(const uint8_t *l, int i)
{
    return number_at(l, fields[i].at, fields[i].bytes);
}

static uint64_t heat_told(const uint8_t *l)
{
    return number_at(l, 12, 4);
}

static uint64_t volume_of(const uint8_t *fuel)
{
    return number_at(fuel, 20, 4);
}

static bool has_form(const uint8_t *l)
{
    if (l[1] != 0 && l[1] != HEAT_TOLD && l[1] != LOW_HEAT_TOLD)
        return false;
    if (l[1] == 0 && heat_told(l) != 0)
        return false;
    return number_at(l, 24, 8) == 0;
}

static bool is_heat_in_range(const uint8_t *l, const uint8_t *fuel)
{
    if (l[1] == 0)
        return true;
    if (l[1] == HEAT_TOLD)
        return heat_told(l) >= 1 && heat_told(l) <= 200000;
    return heat_told(l) >= 1 && heat_told(l) <= 180000 && fuel[3] == NATURAL;
}

static bool is_in_range(const uint8_t *l, const uint8_t *fuel)
{
    for (int i = 0; i < FIELDS; i++)
        if (field(l, i) < fields[i].least || field(l, i) > fields[i].most)
            return false;
    return is_heat_in_range(l, fuel) && fuel[2] == GASEOUS && volume_of(fuel) != 0;
}

/* A low value 1.11 times, in hundredths of a kJ before it is rounded, half of one upward. */
static uint64_t heat_in_use(const uint8_t *l, const uint8_t *fuel)
{
    if (l[1] == 0)
        return number_at(fuel, 4, 4);
    if (l[1] == HEAT_TOLD)
        return heat_told(l);
    const uint64_t hundredths = 111 * heat_told(l);
    return hundredths / 100 + (hundredths % 100 >= 50);
}

/* A whole number by its decimal digits, the last one first. */
struct decimal {
    unsigned digits[DIGITS];
};

static void multiply(struct decimal *x, uint64_t by)
{
    uint64_t carried = 0;
    for (int i = 0; i < DIGITS; i++) {
        carried += by * x->digits[i];
        x->digits[i] = (unsigned)(carried % 10);
        carried /= 10;
    }
}

/* Leaves the quotient in x, and gives the remainder back. */
static uint64_t divide(struct decimal *x, uint64_t by)
{
    uint64_t left = 0;
    for (int i = DIGITS; i-- > 0;) {
        left = 10 * left + x->digits[i];
        x->digits[i] = (unsigned)(left / by);
        left %= by;
    }
    return left;
}

static uint64_t value_of(const struct decimal *x)
{
    uint64_t value = 0;
    for (int i = DIGITS; i-- > 0;)
        value = 10 * value + x->digits[i];
    return value;
}

static unsigned length_of(const struct decimal *x)
{
    unsigned length = DIGITS;
    while (length > 0 && x->digits[length - 1] == 0)
        length--;
    return length;
}

static enum rounding rounding_of(const struct decimal *quotient, uint64_t left, uint64_t volume)
{
    if (left == 0)
        return EXACT;
    if (left + left != volume)
        return left + left < volume ? DOWN : UP;
    return quotient->digits[0] % 2 == 0 ? HALF_DOWN : HALF_UP;
}

struct gas_co2 co2_of_gas(const struct bytes *b, size_t i)
{
    const uint8_t *l = b->book + BOOK_LINE * i;
    const uint64_t volume = volume_of(fuel_line_of(b, l));
    struct decimal x = {{1}};
    struct gas_co2 co2;
    multiply(&x, field(l, AMOUNT));
    multiply(&x, field(l, CARBON));
    multiply(&x, field(l, WEIGHT));
    multiply(&x, 3664);
    co2.digits = length_of(&x);
    const uint64_t left = divide(&x, volume);
    co2.rounding = rounding_of(&x, left, volume);
    co2.ug = value_of(&x) + (co2.rounding == UP || co2.rounding == HALF_UP);
    return co2;
}

/* The first reason that applies. A method is always permitted, so that 6 doesn't. */
static unsigned reason_of_gas(const struct bytes *b, const uint8_t *l)
{
    const uint8_t *fuel = fuel_line_of(b, l);
    if (!has_form(l))
        return 1;
    if (unit_line_of(b, l) == NULL)
        return 2;
    if (fuel == NULL)
        return 3;
    if (!is_in_range(l, fuel))
        return 4;
    return heat_in_use(l, fuel) == 0 ? 7 : 0;
}

struct gas_due due_of_gas(const struct bytes *b, size_t i)
{
    const uint8_t *l = b->book + BOOK_LINE * i, *fuel = fuel_line_of(b, l);
    struct gas_due due = {.reason = reason_of_gas(b, l)};
    if (due.reason != 0)
        return due;
    const uint64_t heat = field(l, AMOUNT) * heat_in_use(l, fuel);
    const bool has_monitor = unit_line_of(b, l)[2] % 2 == 1;
    due.method = has_monitor ? 4 : 3;
    due.co2 = has_monitor ? 0 : co2_of_gas(b, i).ug;
    due.ch4 = heat * number_at(fuel, 12, 4);
    due.n2o = heat * number_at(fuel, 16, 4);
    return due;
}
