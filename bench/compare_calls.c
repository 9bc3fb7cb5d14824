/*
 * Makes every call twice, of the library and of the plain C, and stops the program where reply or
 * buffer differ. Times are of no use if the two don't do the same work.
 */
#include "compare_calls.h"

#include "compare_long.h"
#include "plain.h"
#include "wetherstep.h"

#include <inttypes.h>
#include <stdio.h>
#include <stdlib.h>
#include <string.h>

enum call { FRESH, WAKE, REPORT, LEFT, RECORD, CALLS };
enum field { NUMBER, REASON, METHOD, LEDGER, FIELDS }; /* the lowest bytes of a reply */

static const char *const calls[CALLS] = {"fresh", "wake", "report", "left", "record"};
static const char *const fields[FIELDS] = {"number", "reason", "method", "ledger"};

static unsigned long compared, counts[CALLS][FIELDS][256];

/* Reports by the book's set of warming values and by the decision, 1 if the site must report. */
static unsigned long reports[WARMING_SETS][2];

/* Records that count with a low value, and analysed gas that counts, by their method; hours that
   count with moisture; anodes that count. */
static unsigned long lows[5], gases[5], moist, anodes;

static struct out filled(void)
{
    struct out out;
    memset(out.bytes, 0x5a, sizeof out.bytes);
    return out;
}

/* Method and ledger are counted where they are told: of a record that is there and isn't set aside,
   the method also where there is no record. */
static void count(enum call call, uint64_t reply)
{
    counts[call][NUMBER][wetherstep_number(reply)]++;
    counts[call][REASON][wetherstep_reason(reply)]++;
    if (wetherstep_number(reply) != 0 || wetherstep_reason(reply) != 0)
        return;
    counts[call][METHOD][wetherstep_method(reply)]++;
    if (wetherstep_method(reply) != WETHERSTEP_NO_RECORD)
        counts[call][LEDGER][wetherstep_ledger(reply)]++;
}

static void same(const char *name, enum call call, uint64_t library, uint64_t plain,
                 const void *library_out, const void *plain_out, size_t length)
{
    compared++;
    count(call, plain);
    if (library == plain && memcmp(library_out, plain_out, length) == 0)
        return;
    printf("%s: %s differs: library %016" PRIx64 ", C %016" PRIx64 "\n", name, calls[call], library,
           plain);
    exit(1);
}

struct out compare_fresh(const struct bytes *b, const char *name, size_t out_len)
{
    struct out one = filled(), two = filled();
    uint64_t library = wetherstep_fresh(b->book, b->length, one.bytes, out_len);
    uint64_t plain = plain_fresh(b->book, b->length, two.bytes, out_len);
    same(name, FRESH, library, plain, &one, &two, sizeof one);
    return one;
}

static int is_at_start(const struct out *at)
{
    static const uint8_t none[4];
    return memcmp(at->bytes, none, sizeof none) == 0;
}

/* From the start of a short book its records are gone through among many too. */
uint32_t compare_wake(const struct bytes *b, const char *name, struct out *from, size_t from_len,
                      uint32_t budget, size_t out_len)
{
    struct out one = filled(), two = filled();
    uint64_t library =
        wetherstep_wake(b->book, b->length, from->bytes, from_len, budget, one.bytes, out_len);
    uint64_t plain =
        plain_wake(b->book, b->length, from->bytes, from_len, budget, two.bytes, out_len);
    same(name, WAKE, library, plain, &one, &two, sizeof one);
    if (wetherstep_count(plain) != 0 && is_at_start(from) && is_short_book(b))
        compare_long(b, name);
    if (wetherstep_number(plain) == 0)
        *from = one;
    return wetherstep_count(plain);
}

uint64_t compare_report(const struct bytes *b, const char *name, const struct out *from,
                        size_t from_len)
{
    uint64_t one[8] = {9, 9, 9, 9, 9, 9, 9, 9}, two[8] = {9, 9, 9, 9, 9, 9, 9, 9};
    uint64_t library = wetherstep_report(b->book, b->length, from->bytes, from_len, one);
    uint64_t plain = plain_report(b->book, b->length, from->bytes, from_len, two);
    same(name, REPORT, library, plain, one, two, sizeof one);
    if (wetherstep_number(plain) == 0)
        reports[b->book[in_trailer(b, SET_AT)]][two[5]]++;
    return plain;
}

uint64_t compare_left(const struct bytes *b, const char *name, const struct out *from,
                      size_t from_len)
{
    uint64_t library = wetherstep_left(b->book, b->length, from->bytes, from_len);
    uint64_t plain = plain_left(b->book, b->length, from->bytes, from_len);
    same(name, LEFT, library, plain, "", "", 0);
    return plain;
}

/* A record that counts, by what it has. */
static void count_record(const uint8_t *l, uint64_t reply)
{
    if (l[0] == FUEL && (l[1] & 4) != 0)
        lows[wetherstep_method(reply)]++;
    if (l[0] == HOUR && (l[16] | l[17]) != 0)
        moist++;
    if (l[0] == GAS)
        gases[wetherstep_method(reply)]++;
    if (l[0] == ANODES)
        anodes++;
}

struct look compare_record(const struct bytes *b, const char *name, uint32_t index)
{
    uint64_t one[5] = {9, 9, 9, 9, 9}, two[5] = {9, 9, 9, 9, 9};
    uint64_t library = wetherstep_record(b->book, b->length, index, one);
    uint64_t plain = plain_record(b->book, b->length, index, two);
    same(name, RECORD, library, plain, one, two, sizeof one);
    if (wetherstep_number(plain) == 0 && wetherstep_reason(plain) == 0 &&
        wetherstep_method(plain) != WETHERSTEP_NO_RECORD)
        count_record(b->book + BOOK_LINE * index, plain);
    return (struct look){plain, {two[0], two[1], two[2]}};
}

/* What each call has to have answered. */
static void see_all(void)
{
    static const struct {
        enum call call;
        enum field field;
        unsigned least, most;
    } due[] = {
        {FRESH, NUMBER, 0, 0},   {FRESH, NUMBER, 20, 23},  {FRESH, NUMBER, 32, 32},
        {WAKE, NUMBER, 0, 0},    {WAKE, NUMBER, 20, 23},   {WAKE, NUMBER, 30, 32},
        {REPORT, NUMBER, 0, 0},  {REPORT, NUMBER, 20, 23}, {REPORT, NUMBER, 30, 31},
        {REPORT, NUMBER, 40, 41}, {REPORT, REASON, 1, 8},
        {LEFT, NUMBER, 0, 0},    {LEFT, NUMBER, 20, 23},   {LEFT, NUMBER, 30, 31},
        {RECORD, NUMBER, 0, 0},  {RECORD, NUMBER, 20, 23}, {RECORD, REASON, 1, 8},
        {RECORD, METHOD, 0, 4},  {RECORD, METHOD, 255, 255}, {RECORD, LEDGER, 0, 2},
    };
    for (size_t i = 0; i < sizeof due / sizeof *due; i++)
        for (unsigned x = due[i].least; x <= due[i].most; x++)
            if (counts[due[i].call][due[i].field][x] == 0) {
                printf("no %s answered with %s %u\n", calls[due[i].call], fields[due[i].field], x);
                exit(1);
            }
}

static void see_reports(void)
{
    for (int set = 0; set < WARMING_SETS; set++)
        for (int decision = 0; decision < 2; decision++)
            if (reports[set][decision] == 0) {
                printf("no report under set %d had the decision %d\n", set, decision);
                exit(1);
            }
}

/* Under each method that can have one. */
static void see_lows(void)
{
    for (unsigned method = 2; method <= 4; method++)
        if (lows[method] == 0) {
            printf("no record with a low value had method %u\n", method);
            exit(1);
        }
}

static void see_counted(unsigned long count, const char *what)
{
    if (count == 0) {
        printf("no %s counted\n", what);
        exit(1);
    }
}

void tell_compared(void)
{
    see_all();
    see_reports();
    see_lows();
    see_counted(moist, "hour with moisture");
    see_counted(anodes, "anodes");
    see_counted(gases[3], "analysed gas by method 3");
    see_counted(gases[4], "analysed gas by method 4");
    printf("compared: %lu calls, every number, reason, method and ledger among them; all alike\n"
           "reports with figures: %lu under the first warming values, %lu under the second\n"
           "records that count with a low value: %lu; hours that count with moisture: %lu; anodes "
           "that count: %lu; analysed gas that counts by method 3: %lu, by method 4: %lu\n",
           compared, reports[0][0] + reports[0][1], reports[1][0] + reports[1][1],
           lows[2] + lows[3] + lows[4], moist, anodes, gases[3], gases[4]);
}
