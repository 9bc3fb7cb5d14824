/* Every call on books about 65,536 bytes and about the longest. */
#ifndef COMPARE_LARGE_H
#define COMPARE_LARGE_H

#include "books.h"

void compare_large(struct bytes *b);

/* Says what was met, and stops unless a book is refused for its length exactly when it is longer
   than the longest, and checkpoints of shorter books whenever the book has grown. */
void tell_large(void);

#endif
