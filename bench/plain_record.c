/* Plain C of the look at a record, by the book's lines. */
#include "plain.h"

#include "plain_before.h"
#include "plain_records.h"

static uint64_t reply(unsigned number, unsigned reason, unsigned method, unsigned ledger)
{
    return (uint64_t)ledger << 24 | method << 16 | reason << 8 | number;
}

uint64_t plain_record(const uint8_t *book, size_t book_len, uint32_t index, uint64_t masses[3])
{
    struct book k;
    struct given given;
    unsigned refused = open_book(&k, book, book_len);
    if (refused != 0)
        return reply(refused, 0, 0, 0);
    if (index >= k.n)
        return reply(0, 0, 255, 0);
    const uint8_t *l = book + index * LINE;
    unsigned reason = judge_alone(&k, l, &given);
    if (reason == 0 && can_repeat(l[0]) && is_among(book, l))
        reason = 8;
    if (reason != 0)
        return reply(0, reason, 0, 0);
    masses[0] = given.co2;
    masses[1] = given.ch4;
    masses[2] = given.n2o;
    return reply(0, 0, given.method, given.ledger);
}
