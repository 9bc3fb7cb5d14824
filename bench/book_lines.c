/* Writes the lines. */
#include "book_lines.h"

#include <stdbool.h>
#include <string.h>

void put(uint8_t *at, uint64_t value, size_t bytes)
{
    for (size_t i = 0; i < bytes; i++)
        at[i] = (uint8_t)(value >> 8 * i);
}

static void write_single(uint8_t *at, float value)
{
    uint32_t bits;
    memcpy(&bits, &value, sizeof bits);
    put(at, bits, 4);
}

uint32_t number_of(size_t i)
{
    return (uint32_t)(7 + 11 * i + i * i % 5);
}

static bool has_hours_alone(enum mix mix)
{
    return mix == ALL_HOURS || mix == DRY_HOURS || mix == RISING_HOURS || mix == SITE_HOURS ||
           mix == REPEATED_HOURS;
}

/* Unless all units have a monitor, or none, every fourth has one; of the others every third is a
   big one. */
static bool is_monitored(enum mix mix, size_t i)
{
    return has_hours_alone(mix) || (mix != ALL_FUEL && mix != ALL_GAS && i % 4 == 0);
}

static bool is_big(size_t i)
{
    return i % 4 == 2;
}

void write_unit(uint8_t *l, enum mix mix, size_t i)
{
    put(l, number_of(i), 2);
    put(l + 2, mix == DRY_HOURS ? 3 : is_monitored(mix, i), 1);
    put(l + 4, is_big(i) ? 9000 : 2500, 4);
}

struct sort {
    uint8_t kind, class;
};

/* Of four fuels in turn one has each class; in a refinery the one of class 0 is a gas too. */
static struct sort sort_of(enum mix mix, size_t fuel)
{
    static const struct sort natural_gas = {3, 1}, other_gas = {3, 0};
    static const struct sort usual[4] = {{3, 1}, {2, 2}, {1, 3}, {1, 0}};
    static const struct sort refinery[4] = {{3, 1}, {2, 2}, {3, 0}, {1, 3}};
    if (mix == LOW_HEATS || (mix == ALL_GAS && fuel % 2 == 0))
        return natural_gas;
    if (mix == ALL_GAS)
        return other_gas;
    return mix == REFINERY ? refinery[fuel % 4] : usual[fuel % 4];
}

/* Fuel 0 has that of 20 degrees, others are all over the range: no two of 64 are alike. In books of
   analysed gas solids and liquids have one too, which isn't used. */
static uint32_t molar_volume_of(enum mix mix, size_t fuel)
{
    if (mix != ALL_GAS && mix != REFINERY)
        return 0;
    return 20000 + (4060 + 1201 * (uint32_t)fuel) % 7001;
}

void write_fuel(uint8_t *l, enum mix mix, size_t i)
{
    const struct sort sort = sort_of(mix, i);
    put(l, number_of(i), 2);
    put(l + 2, sort.kind, 1);
    put(l + 3, sort.class, 1);
    put(l + 4, 38000 + (uint32_t)i, 4);
    put(l + 8, 50000 + 100 * (uint32_t)i, 4);
    put(l + 12, 900 + (uint32_t)i, 4);
    put(l + 16, 90 + (uint32_t)i, 4);
    put(l + VOLUME_AT, molar_volume_of(mix, i), 4);
}

/* A big unit gets its carbon measured: no other method is permitted for every class. */
void write_burned(uint8_t *l, size_t unit, size_t fuel, uint64_t *row)
{
    uint32_t flags = draw(row, 4) | (is_big(unit) ? 2 : 0);
    put(l, FUEL, 1);
    put(l + 1, flags, 1);
    put(l + 2, number_of(unit), 2);
    put(l + 4, number_of(fuel), 2);
    put(l + 6, 1 + draw(row, LAST_MONTH), 2);
    put(l + 8, draw(row, 100000001), 4);
    if (flags & 1)
        put(l + 12, 1 + draw(row, 200000), 4);
    if (flags & 2)
        put(l + 16, draw(row, 1000001), 4);
}

static void write_low(uint8_t *l, size_t unit, size_t fuel, uint64_t *row)
{
    write_burned(l, unit, fuel, row);
    l[1] |= 5;
    put(l + 12, 1 + draw(row, 180000), 4);
}

void write_hour(uint8_t *l, size_t unit, uint64_t *row)
{
    put(l, HOUR, 1);
    put(l + 2, number_of(unit), 2);
    put(l + 6, 1 + draw(row, LAST_HOUR), 2);
    write_single(l + 8, (float)draw(row, 100001) / 1000.0f);
    write_single(l + 12, (float)draw(row, 1000000001));
}

static void write_dry(uint8_t *l, size_t unit, uint64_t *row)
{
    write_hour(l, unit, row);
    put(l + 16, draw(row, 1001), 2);
}

void write_anodes(uint8_t *l, const struct anodes *anodes)
{
    put(l, ANODES, 1);
    put(l + 2, number_of(anodes->unit), 2);
    put(l + 6, anodes->month, 2);
    put(l + 8, anodes->metal, 4);
    put(l + 12, anodes->use, 4);
    for (size_t i = 0; i < 3; i++)
        put(l + 16 + 2 * i, anodes->impurities[i], 2);
}

/* Impurities of up to 33.33 percent each are under 100 together. */
void write_monthly(uint8_t *l, size_t units, size_t i, uint64_t *row)
{
    struct anodes anodes = {.unit = i % units, .month = 1 + (uint32_t)(i / units) % LAST_MONTH};
    anodes.metal = draw(row, 100000001);
    anodes.use = draw(row, 1001);
    for (size_t j = 0; j < 3; j++)
        anodes.impurities[j] = draw(row, 3334);
    write_anodes(l, &anodes);
}

void write_gas(uint8_t *l, const struct gas *gas)
{
    put(l, GAS, 1);
    put(l + 1, gas->flags, 1);
    put(l + 2, number_of(gas->unit), 2);
    put(l + 4, number_of(gas->fuel), 2);
    put(l + 6, gas->month, 2);
    put(l + 8, gas->amount, 4);
    put(l + 12, gas->heat, 4);
    put(l + 16, gas->carbon, 4);
    put(l + 20, gas->weight, 4);
}

/* Heat is measured or not, and that of natural gas high or low. */
static void write_analysed(uint8_t *l, size_t unit, size_t fuel, bool is_natural, uint64_t *row)
{
    const bool has_heat = draw(row, 2), is_low = has_heat && is_natural && draw(row, 2);
    struct gas gas = {.unit = unit, .fuel = fuel, .flags = is_low ? 5 : has_heat};
    gas.month = 1 + draw(row, LAST_MONTH);
    gas.amount = draw(row, 100000001);
    if (has_heat)
        gas.heat = 1 + draw(row, is_low ? 180000 : 200000);
    gas.carbon = draw(row, 1000001);
    gas.weight = 1 + draw(row, 200000);
    write_gas(l, &gas);
}

static bool is_mixed(enum mix mix)
{
    return mix == MIXED || mix == SMELTER || mix == REFINERY;
}

static void write_fuel_record(uint8_t *l, enum mix mix, size_t unit, size_t fuel, uint64_t *row)
{
    const struct sort sort = sort_of(mix, fuel);
    if (mix == ALL_GAS || (mix == REFINERY && sort.kind == 3 && draw(row, 2)))
        write_analysed(l, unit, fuel, sort.class == 1, row);
    else if (mix == LOW_HEATS)
        write_low(l, unit, fuel, row);
    else
        write_burned(l, unit, fuel, row);
}

void write_record(uint8_t *l, const struct recipe *recipe, size_t unit, uint64_t *row)
{
    enum mix mix = recipe->mix;
    if (mix == DRY_HOURS)
        write_dry(l, unit, row);
    else if (has_hours_alone(mix) || (is_mixed(mix) && is_monitored(mix, unit) && draw(row, 2)))
        write_hour(l, unit, row);
    else
        write_fuel_record(l, mix, unit, draw(row, (uint32_t)recipe->fuels), row);
}
