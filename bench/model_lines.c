/* Reads lines for the models. */
#include "model_lines.h"

#include <string.h>

uint64_t number_at(const uint8_t *l, size_t at, size_t bytes)
{
    uint64_t number = 0;
    while (bytes-- > 0)
        number = 256 * number + l[at + bytes];
    return number;
}

/* The line from i on and before `end` that has this number. */
static const uint8_t *line_of(const struct bytes *b, size_t i, size_t end, const uint8_t *number)
{
    for (; i < end; i++)
        if (memcmp(b->book + BOOK_LINE * i, number, 2) == 0)
            return b->book + BOOK_LINE * i;
    return NULL;
}

const uint8_t *unit_line_of(const struct bytes *b, const uint8_t *l)
{
    return line_of(b, b->records, b->records + b->units, l + 2);
}

const uint8_t *fuel_line_of(const struct bytes *b, const uint8_t *l)
{
    return line_of(b, b->records + b->units, b->length / BOOK_LINE - 1, l + 4);
}
