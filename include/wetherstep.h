/*
 * Wetherstep: a site's greenhouse gas return, worked out by a job that may be stopped anywhere.
 *
 * A job starts with a fresh checkpoint of a book, goes on by wakes, each from a checkpoint and with
 * a budget of records, and ends with a report. Between them a caller may ask how many records are
 * left, and look at any single one. Book and checkpoint are described in docs/FORMAT.md, the rules
 * in docs/RULES.md. Link libwetherstep.a, which tools/c-library builds (x86-64 Linux). C99, also
 * from C++.
 *
 * THE CALLER'S DUTIES. The library is proved for all bytes, lengths, budgets and indices. It can't
 * see that
 *   - each length is true: so many bytes can be read at the pointer before it, or written there;
 *   - the buffers of one call don't overlap, so a wake writes beside the checkpoint that it reads;
 *   - `figures` and `masses` aren't null, are aligned as a uint64_t is, and have room for six
 *     numbers and for three;
 *   - while a call runs, nothing else writes to its buffers: no thread, no signal handler, no
 *     device, and nobody to a file that is mapped there;
 *   - a checkpoint is of this very book: see A CHECKPOINT STANDS FOR ONE BOOK below.
 * Books, checkpoints and buffers for them may stand at any address: they need no alignment. One of
 * length 0 may have any pointer, also a null one.
 *
 * REFUSALS. A call whose number isn't 0 has written nothing: every buffer is as it was.
 *
 * WHAT A CALL TAKES. The library keeps no state between calls, allocates nothing and doesn't call
 * the operating system. It is re-entrant: calls may run at once, each with buffers of its own to
 * write to, and may read the same book. Of the C library memset alone is linked. A call's stack in
 * bytes, measured by bench/run and not proved: fresh 232, wake 114,048, report 232, left 120,
 * record 144. So much a wake takes only where it goes through many records with an hour or anodes
 * among them, else 13,376, and of one record 528: a thread of 128 KiB has room for each.
 */
#ifndef WETHERSTEP_H
#define WETHERSTEP_H

#include <stddef.h>
#include <stdint.h>

#ifdef __cplusplus
extern "C" {
#endif

/*
 * THE REPLY is one word. Every other bit is 0, and so is a field that the number doesn't use.
 *
 *   bits 0-7      the number: 0, or why the call was refused
 *   bits 8-15     the reason: with number 41, and of a record that is set aside
 *   bits 16-23    the method of a record that counts; 255 where there is no such record
 *   bits 24-31    the ledger that its CO2 goes to
 *   bits 32-63    the count: of an accepted wake, the records gone through, also those set aside;
 *                 of wetherstep_left, the records left; with 40, the records done; with 41, the
 *                 index of the first record set aside
 */
static inline unsigned wetherstep_number(uint64_t reply) { return (unsigned)(reply % 256); }
static inline unsigned wetherstep_reason(uint64_t reply) { return (unsigned)(reply / 256 % 256); }
static inline unsigned wetherstep_method(uint64_t reply) { return (unsigned)(reply / 65536 % 256); }
static inline unsigned wetherstep_ledger(uint64_t reply)
{
    return (unsigned)(reply / 16777216 % 256);
}
static inline uint32_t wetherstep_count(uint64_t reply) { return (uint32_t)(reply / 4294967296u); }

/* NUMBERS. The smallest that applies is given. With 0 the call did what it is for. */
#define WETHERSTEP_ACCEPTED 0
/*
 * The book breaks a rule. No wake mends that: see that the book is whole, or have it corrected.
 * With the same book, copied anew, go on from the saved checkpoint; with one that was changed,
 * start afresh.
 */
#define WETHERSTEP_BOOK_LENGTH 20   /* no multiple of 32 up to 4,194,304: was it copied whole? */
#define WETHERSTEP_BOOK_TRAILER 21  /* its last line: is it a book, of a year from 2000 to 2099? */
#define WETHERSTEP_BOOK_UNITS 22    /* a unit line, or over 64 of them: correct the list of units */
#define WETHERSTEP_BOOK_FUELS 23    /* a fuel line, or over 64 of them: correct the list of fuels */
/*
 * The checkpoint, in a wake, a report or a count of what is left. Try an older one of this book:
 * that costs wakes, and no figure changes. If there is none, start afresh.
 */
#define WETHERSTEP_CHECKPOINT_LENGTH 30   /* not 96 bytes: was it saved and read whole? */
#define WETHERSTEP_CHECKPOINT_UNSOUND 31  /* damaged, or of another book, or the book has grown */
/* The buffer for a new checkpoint, in a fresh start or a wake: a mistake of the calling program. */
#define WETHERSTEP_BUFFER_LENGTH 32       /* not 96 bytes */
/* The report withholds the figures. */
#define WETHERSTEP_UNFINISHED 40    /* so many records are done: wake again, until all are */
#define WETHERSTEP_RECORD_ASIDE 41  /* index and reason of a record: correct it, start afresh */

/*
 * REASONS why a record is set aside. It adds to no total until it is corrected in the book. Others
 * may follow: a report names the first, and wetherstep_record tells of each.
 */
#define WETHERSTEP_REASON_FORM 1     /* kind, flags or a byte that must be 0: write it anew; moisture
                                        is for a unit whose monitor measures dry gas */
#define WETHERSTEP_REASON_UNIT 2     /* the unit isn't listed: list it, or correct its number */
#define WETHERSTEP_REASON_FUEL 3     /* the fuel isn't listed: list it, or correct its number */
#define WETHERSTEP_REASON_RANGE 4    /* month, hour, amount, heat, carbon, molecular weight, moisture,
                                        reading, metal, anode use or impurities: correct it; a low heat
                                        value is for natural gas alone, and a molecular weight for a gas
                                        whose line has a molar volume */
#define WETHERSTEP_REASON_MONITOR 5  /* an hour of a unit without a monitor: correct unit or flag */
#define WETHERSTEP_REASON_METHOD 6   /* no permitted method: give the carbon, or check the rating */
#define WETHERSTEP_REASON_HEAT 7     /* no heat in use: give it, or give the fuel a default */
#define WETHERSTEP_REASON_REPEAT 8   /* an hour, or anodes of a month, that an earlier record has: keep
                                        the right one, and take the others out */

/* METHODS by which a record counts. */
#define WETHERSTEP_METHOD_HOUR 0           /* none: a monitor hour or anodes, by what they tell */
#define WETHERSTEP_METHOD_DEFAULT_HEAT 1   /* fuel, by its default heat */
#define WETHERSTEP_METHOD_MEASURED_HEAT 2  /* fuel, by the heat measured, as a low value or not */
#define WETHERSTEP_METHOD_CARBON 3         /* fuel, by the carbon measured, in a unit or in a kg of it */
#define WETHERSTEP_METHOD_MONITORED 4      /* fuel of a monitored unit, whose hours give the CO2 */
#define WETHERSTEP_NO_RECORD 255           /* the book has no record with this index */

/* LEDGERS that CO2 goes to. CH4 and N2O have one each. */
#define WETHERSTEP_LEDGER_NONE 0     /* under method 4, which gives no CO2 */
#define WETHERSTEP_LEDGER_FOSSIL 1
#define WETHERSTEP_LEDGER_BIOMASS 2

/*
 * A CHECKPOINT is 96 bytes. Take them as they are: save all of them, and change none. A wake whose
 * checkpoint wasn't saved counts as never made. To save one so that a stop at any instant, by a
 * flat battery too, leaves a whole checkpoint:
 *   1. write it to another file in the same folder, and fsync that file;
 *   2. rename it over the last checkpoint, and fsync the folder.
 * Without the first sync the name may reach the disk before the bytes do. Without the second the
 * last checkpoint may come back, which costs a wake.
 *
 * A CHECKPOINT STANDS FOR ONE BOOK, byte for byte. Of the book it holds the length and the year,
 * and the library sees no more: another length or year is refused (31), any other change is not,
 * and the figures would be part of one book and part of the other. If a book may have been edited
 * since its job was begun, keep a copy of the book beside the checkpoint, and compare the two
 * before each call that takes the checkpoint. Where they differ, start afresh in this order, so
 * that no stop leaves an old checkpoint beside the new copy:
 *   1. remove the old checkpoint, and fsync the folder;
 *   2. save the copy of the book, as a checkpoint is saved;
 *   3. make the fresh start, and save its checkpoint.
 * A first job begins with 2. The program `wake` does all this, with the copy in CHECKPOINT.book.
 * Byte 20 of the trailer alone may change: no checkpoint knows the set of warming values.
 */
#define WETHERSTEP_CHECKPOINT_SIZE 96

/*
 * FIGURES are six numbers, at these places: five in whole kg, each rounded once from its own exact
 * mass, so that they need not add up, and the decision. CO2e and the decision are under the set of
 * warming values that the trailer of the report's book names.
 */
#define WETHERSTEP_FIGURES 6
#define WETHERSTEP_FOSSIL_CO2 0
#define WETHERSTEP_BIOMASS_CO2 1
#define WETHERSTEP_CH4 2
#define WETHERSTEP_N2O 3
#define WETHERSTEP_CO2E 4
#define WETHERSTEP_MUST_REPORT 5  /* 1 if the site must report, else 0 */

/*
 * MASSES are three numbers, at these places: what one record that counts gives to its ledgers. A
 * report rounds their sums alone.
 */
#define WETHERSTEP_MASSES 3
#define WETHERSTEP_MASS_CO2 0  /* in micrograms */
#define WETHERSTEP_MASS_CH4 1  /* in nanograms */
#define WETHERSTEP_MASS_N2O 2  /* in nanograms */

/* Writes a checkpoint of the book with nothing done. Numbers: 0, 20 to 23, 32. */
uint64_t wetherstep_fresh(const uint8_t *book, size_t book_len, uint8_t *out, size_t out_len);

/*
 * Goes through the next records, `budget` at most and fewer at the book's end, and writes the
 * checkpoint after them. A budget of 0, or a finished book, moves nothing and still writes a whole
 * checkpoint. Numbers: 0, 20 to 23, 30 to 32.
 */
uint64_t wetherstep_wake(const uint8_t *book, size_t book_len, const uint8_t *checkpoint,
                         size_t checkpoint_len, uint32_t budget, uint8_t *out, size_t out_len);

/*
 * Writes the figures of a finished book, no record of which was set aside. Numbers: 0, 20 to 23,
 * 30, 31, 40, 41.
 */
uint64_t wetherstep_report(const uint8_t *book, size_t book_len, const uint8_t *checkpoint,
                           size_t checkpoint_len, uint64_t figures[WETHERSTEP_FIGURES]);

/* Counts the records left, 0 of a finished book. Writes nothing. Numbers: 0, 20 to 23, 30, 31. */
uint64_t wetherstep_left(const uint8_t *book, size_t book_len, const uint8_t *checkpoint,
                         size_t checkpoint_len);

/*
 * Looks at one record of the book, the first having index 0. With number 0 the reply tells
 *   - a reason: the record is set aside;
 *   - the method WETHERSTEP_NO_RECORD: there is no such record;
 *   - else method and ledger: the record counts, and its masses are written.
 * In every other case `masses` is as it was. Numbers: 0, 20 to 23.
 */
uint64_t wetherstep_record(const uint8_t *book, size_t book_len, uint32_t index,
                           uint64_t masses[WETHERSTEP_MASSES]);

#ifdef __cplusplus
}
#endif

#endif
