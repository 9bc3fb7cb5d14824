/*
 * How much stack a call takes: it runs on a stack of its own that is filled before, and what is no
 * longer as it was filled was touched.
 */
#include "stack.h"

#include "plain.h"
#include "wetherstep.h"

#include <stdbool.h>
#include <stdio.h>
#include <stdlib.h>
#include <string.h>
#include <ucontext.h>

enum { ROOM = 1 << 18, FILLED = 0xa5, SIZE = WETHERSTEP_CHECKPOINT_SIZE, SOME = 100 };

static uint8_t room[ROOM];

/* The bytes of stack that a call of `run` touches, on a stack of its own. */
static size_t stack_of(void (*run)(void))
{
    static ucontext_t here, there;
    memset(room, FILLED, ROOM);
    if (getcontext(&there) != 0) {
        perror("getcontext");
        exit(1);
    }
    there.uc_stack.ss_sp = room;
    there.uc_stack.ss_size = ROOM;
    there.uc_link = &here;
    makecontext(&there, run, 0);
    if (swapcontext(&here, &there) != 0) {
        perror("swapcontext");
        exit(1);
    }
    size_t untouched = 0;
    while (untouched < ROOM && room[untouched] == FILLED)
        untouched++;
    return ROOM - untouched;
}

/* A function that runs on a stack of its own takes no argument. The checkpoints are those with no
   record done, with all but some, all but one, and all. */
static const struct bytes *book;
static uint8_t none[SIZE], most[SIZE], but_one[SIZE], all[SIZE];

static void wake_from(const uint8_t *from)
{
    uint8_t out[SIZE];
    wetherstep_wake(book->book, book->length, from, SIZE, UINT32_MAX, out, SIZE);
}

static void call_fresh(void)
{
    uint8_t out[SIZE];
    wetherstep_fresh(book->book, book->length, out, SIZE);
}

static void call_wake(void)
{
    wake_from(none);
    wake_from(most);
}

static void call_last(void)
{
    wake_from(but_one);
}

/* A wake of a book that has this kind alone, and of any other book none. */
static void wake_alone(uint8_t kind)
{
    for (size_t i = 0; i < book->records; i++)
        if (book->book[BOOK_LINE * i] != kind)
            return;
    call_wake();
}

static void call_fuel(void)
{
    wake_alone(FUEL);
}

static void call_gas(void)
{
    wake_alone(GAS);
}

static void call_anodes(void)
{
    wake_alone(ANODES);
}

static void call_report(void)
{
    uint64_t figures[WETHERSTEP_FIGURES];
    wetherstep_report(book->book, book->length, all, SIZE, figures);
}

static void call_left(void)
{
    wetherstep_left(book->book, book->length, all, SIZE);
}

/* Each record, and of a book past a full one the last ones: each looks at all before it. */
static void call_record(void)
{
    uint64_t masses[WETHERSTEP_MASSES];
    const uint32_t n = (uint32_t)book->records;
    for (uint32_t i = book->length > FULL_BOOK ? n - SOME : 0; i < n; i++)
        wetherstep_record(book->book, book->length, i, masses);
}

static void call_nothing(void)
{
}

static void begin(struct bytes *b, const struct recipe *recipe)
{
    make_book(b, recipe);
    const uint32_t n = (uint32_t)b->records;
    book = b;
    plain_fresh(b->book, b->length, none, SIZE);
    plain_wake(b->book, b->length, none, SIZE, n < SOME ? 0 : n - SOME, most, SIZE);
    plain_wake(b->book, b->length, none, SIZE, n - 1, but_one, SIZE);
    plain_wake(b->book, b->length, none, SIZE, n, all, SIZE);
}

/* The way to a call takes stack too, and isn't counted. */
void tell_stack(struct bytes *b, const char *name, const struct recipe *books, size_t count)
{
    static const struct {
        const char *name;
        void (*run)(void);
    } calls[] = {{"fresh", call_fresh},
                 {"wake", call_wake},
                 {"wake of one record", call_last},
                 {"wake of fuel alone", call_fuel},
                 {"wake of gas alone", call_gas},
                 {"wake of anodes alone", call_anodes},
                 {"report", call_report},
                 {"left", call_left},
                 {"record", call_record}};
    enum { CALLS = sizeof calls / sizeof *calls };
    size_t used[CALLS] = {0};
    for (size_t i = 0; i < count; i++) {
        begin(b, &books[i]);
        for (int j = 0; j < CALLS; j++) {
            size_t more = stack_of(calls[j].run) - stack_of(call_nothing);
            used[j] = more > used[j] ? more : used[j];
        }
    }
    printf("\nstack of the library, bytes, %s:", name);
    for (int j = 0; j < CALLS; j++)
        printf("%s %s %zu", j == 0 ? "" : ",", calls[j].name, used[j]);
    printf("\n");
}
