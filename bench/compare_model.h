/* Library, C and a model on one book: of hours and anodes that stand before, of any anodes and of
   analysed gas. */
#ifndef COMPARE_MODEL_H
#define COMPARE_MODEL_H

#include "books.h"

enum { REPEATED = 8, REASON_AT = 12 }; /* the reason, and where a checkpoint names one */

/* Stops where a record has another reason than the model's, a wake of one record adds other masses
   than those of the record, or a wake comes to another checkpoint than wakes of one record do,
   whichever earlier one it goes on from. Places and budgets are drawn from `row`, and some are
   fixed. */
void compare_modelled(const struct bytes *b, const char *name, uint64_t *row);

/* By the model, of record i of the last book. */
unsigned reason_due(size_t i);

/* Stops the program, and says that this of a record is wrong. */
void stop_at(const char *name, const char *what, size_t i);

#endif
