/*
 * The library's calls again, in plain C written from the requirements alone and for speed:
 * what the library is timed against. Buffers, lengths and replies are as in include/wetherstep.h.
 */
#ifndef PLAIN_H
#define PLAIN_H

#include <stddef.h>
#include <stdint.h>

uint64_t plain_fresh(const uint8_t *book, size_t book_len, uint8_t *out, size_t out_len);
uint64_t plain_wake(const uint8_t *book, size_t book_len, const uint8_t *checkpoint,
                    size_t checkpoint_len, uint32_t budget, uint8_t *out, size_t out_len);
uint64_t plain_report(const uint8_t *book, size_t book_len, const uint8_t *checkpoint,
                      size_t checkpoint_len, uint64_t figures[6]);
uint64_t plain_left(const uint8_t *book, size_t book_len, const uint8_t *checkpoint,
                    size_t checkpoint_len);
uint64_t plain_record(const uint8_t *book, size_t book_len, uint32_t index, uint64_t masses[3]);

#endif
