/* Lines of a book as the models read them: byte by byte, and looked up one after the other. */
#ifndef MODEL_LINES_H
#define MODEL_LINES_H

#include "books.h"

/* The little-endian number of so many bytes. */
uint64_t number_at(const uint8_t *l, size_t at, size_t bytes);

/* The unit line and the fuel line that the record at l names; null if there is none. */
const uint8_t *unit_line_of(const struct bytes *b, const uint8_t *l);
const uint8_t *fuel_line_of(const struct bytes *b, const uint8_t *l);

#endif
