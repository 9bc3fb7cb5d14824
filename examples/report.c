/*
 * The year's report of a book, worked out as a tablet does it: a fresh start, wakes of ten records
 * from checkpoint to checkpoint until none is left, and the report. A tablet saves each checkpoint
 * before it goes on, and a copy of the book before the first: wetherstep.h says how. Where records
 * are set aside, standard error has each of them with its reason.
 */
#include <errno.h>
#include <inttypes.h>
#include <stdio.h>
#include <string.h>

#include "wetherstep.h"

enum { BUDGET = 10, LONGEST = 4194304, LINE = 32 };

enum status { PRINTED, FAILED, WRONG_ARGUMENTS, REFUSED };

static enum status fail(const char *where) {
    fprintf(stderr, "%s: %s\n", where, strerror(errno));
    return FAILED;
}

static int is_refused(uint64_t reply) {
    return wetherstep_number(reply) != WETHERSTEP_ACCEPTED;
}

static enum status refuse(uint64_t reply) {
    printf("refused %u", wetherstep_number(reply));
    if (wetherstep_number(reply) == WETHERSTEP_RECORD_ASIDE)
        printf(" record %" PRIu32 " reason %u", wetherstep_count(reply), wetherstep_reason(reply));
    printf("\n");
    return REFUSED;
}

static int is_there(uint64_t look) {
    return !is_refused(look) && wetherstep_method(look) != WETHERSTEP_NO_RECORD;
}

/* A report names the first record set aside, and whoever corrects the book wants all of them. */
static void list_set_aside(const uint8_t *book, size_t length) {
    uint64_t look, masses[WETHERSTEP_MASSES];

    for (uint32_t i = 0; is_there(look = wetherstep_record(book, length, i, masses)); i++)
        if (wetherstep_reason(look) != 0)
            fprintf(stderr, "record %" PRIu32 " reason %u\n", i, wetherstep_reason(look));
}

static void print(const uint8_t *book, size_t length, const uint64_t *figures) {
    const uint8_t *trailer = book + length - LINE; /* the book was accepted, so it has one */
    size_t start = 0;

    for (int i = 11; i >= 8; i--)
        start = 256 * start + trailer[i];
    printf("year %u\n", trailer[16] + 256u * trailer[17]);
    printf("records %zu\n", start / LINE);
    printf("fossil-co2-kg %" PRIu64 "\n", figures[WETHERSTEP_FOSSIL_CO2]);
    printf("biomass-co2-kg %" PRIu64 "\n", figures[WETHERSTEP_BIOMASS_CO2]);
    printf("ch4-kg %" PRIu64 "\n", figures[WETHERSTEP_CH4]);
    printf("n2o-kg %" PRIu64 "\n", figures[WETHERSTEP_N2O]);
    printf("co2e-kg %" PRIu64 "\n", figures[WETHERSTEP_CO2E]);
    printf("must-report %s\n", figures[WETHERSTEP_MUST_REPORT] ? "yes" : "no");
}

static enum status report(const uint8_t *book, size_t length) {
    uint8_t checkpoint[WETHERSTEP_CHECKPOINT_SIZE], next[WETHERSTEP_CHECKPOINT_SIZE];
    uint64_t figures[WETHERSTEP_FIGURES];
    uint64_t reply = wetherstep_fresh(book, length, checkpoint, sizeof checkpoint);

    if (is_refused(reply))
        return refuse(reply);
    /* A count that is refused is 0 too, and then the report tells why. */
    while (wetherstep_count(wetherstep_left(book, length, checkpoint, sizeof checkpoint)) > 0) {
        reply = wetherstep_wake(book, length, checkpoint, sizeof checkpoint, BUDGET,
                                next, sizeof next);
        if (is_refused(reply))
            return refuse(reply);
        memcpy(checkpoint, next, sizeof checkpoint);
    }
    reply = wetherstep_report(book, length, checkpoint, sizeof checkpoint, figures);
    if (wetherstep_number(reply) == WETHERSTEP_RECORD_ASIDE)
        list_set_aside(book, length);
    if (is_refused(reply))
        return refuse(reply);
    print(book, length, figures);
    return PRINTED;
}

int main(int argc, char **argv) {
    static uint8_t book[LONGEST + 1]; /* a byte more, so that a book that is too long is seen */
    enum status status;
    size_t length;
    FILE *file;

    if (argc != 2) {
        fprintf(stderr, "usage: report BOOK\n");
        return WRONG_ARGUMENTS;
    }
    file = fopen(argv[1], "rb");
    if (!file)
        return fail(argv[1]);
    length = fread(book, 1, sizeof book, file);
    if (ferror(file))
        return fail(argv[1]);
    fclose(file);
    status = report(book, length);
    if (fflush(stdout) != 0 || ferror(stdout)) /* until here it may wait in memory */
        return fail("standard output");
    return status;
}
