/*
 * second/driver: answers frames as `replay` does (docs/FORMAT.md, "Frames"), through the functions of
 * include/wetherstep.h as a C program calls them, so that the comparisons reach the C face itself. It
 * knows one call more: 5, the records left of a book and a checkpoint. Its answer is the number in byte
 * 0 and the count in bytes 4-7, and its argument is 0.
 *
 * A call that writes where it must not ends the driver, since no answer could tell it.
 */
#define _POSIX_C_SOURCE 200809L

#include <errno.h>
#include <stdio.h>
#include <stdlib.h>
#include <string.h>
#include <unistd.h>

#include "wetherstep.h"

enum { FRESH = 1, WAKE, REPORT, RECORD, LEFT };
enum { HEAD = 24, ANSWER = 64, MOST_BYTES = 5242880, GUARD = 64, JUNK = 0xA5 };
enum { MASSES = 3, NO_SUCH_RECORD = 255 };

struct frame {
    unsigned call;
    uint32_t argument;
    size_t book_len, checkpoint_len, out_len;
};

/* A frame as it came, and what is behind it. It begins at an odd address: no part needs another. */
static uint8_t room[1 + HEAD + MOST_BYTES + GUARD];
static uint8_t *const bytes = room + 1;
static uint8_t before[sizeof room];

/* The numbers that a call may fill, between others that it may not. */
enum { FIRST = 4, NUMBERS = FIRST + WETHERSTEP_FIGURES + 4 };
static uint64_t numbers[NUMBERS];

static uint8_t input[1 << 16], output[1 << 16];
static size_t input_at, input_end, output_end;

static void fail(const char *what) {
    fprintf(stderr, "%s: %s\n", what, strerror(errno));
    exit(1);
}

static void flush(void) {
    for (size_t at = 0; at < output_end;) {
        ssize_t wrote = write(STDOUT_FILENO, output + at, output_end - at);
        if (wrote > 0)
            at += (size_t)wrote;
        else if (errno != EINTR)
            fail("standard output");
    }
    output_end = 0;
}

static void give(const uint8_t *from, size_t length) {
    while (length > 0) {
        if (output_end == sizeof output)
            flush();
        size_t part = sizeof output - output_end;
        if (part > length)
            part = length;
        memcpy(output + output_end, from, part);
        output_end += part, from += part, length -= part;
    }
}

/* Gives whether there was more. Whoever waits for answers before asking on gets them first. */
static int refill(void) {
    ssize_t got;
    flush();
    do
        got = read(STDIN_FILENO, input, sizeof input);
    while (got < 0 && errno == EINTR);
    if (got < 0)
        fail("standard input");
    input_at = 0;
    input_end = (size_t)got;
    return got > 0;
}

/* Gives how many bytes there were, which is fewer only at the end of the input. */
static size_t take(uint8_t *to, size_t length) {
    size_t taken = 0;
    while (taken < length && (input_at < input_end || refill())) {
        size_t part = input_end - input_at;
        if (part > length - taken)
            part = length - taken;
        memcpy(to + taken, input + input_at, part);
        input_at += part, taken += part;
    }
    return taken;
}

/* What was answered before stays answered. */
__attribute__((noreturn)) static void stop_at(unsigned long serial, const char *why) {
    flush();
    fprintf(stderr, "frame %lu %s\n", serial, why);
    exit(1);
}

static uint32_t word_at(const uint8_t *at) {
    return at[0] | (uint32_t)at[1] << 8 | (uint32_t)at[2] << 16 | (uint32_t)at[3] << 24;
}

static void put(uint8_t *at, uint64_t value) {
    for (int i = 0; i < 8; i++)
        at[i] = (uint8_t)(value >> 8 * i);
}

static int read_head(struct frame *frame) {
    const uint8_t *head = bytes;
    frame->call = head[0];
    frame->argument = word_at(head + 4);
    frame->book_len = word_at(head + 8);
    frame->checkpoint_len = word_at(head + 12);
    frame->out_len = word_at(head + 16);
    int takes_argument = frame->call == WAKE || frame->call == RECORD;
    /* In 64 bits, for three lengths may add up to more than 32 hold, and a size_t may have no more. */
    uint64_t together = (uint64_t)frame->book_len + frame->checkpoint_len + frame->out_len;
    return FRESH <= frame->call && frame->call <= LEFT && !head[1] && !head[2] && !head[3] &&
           (takes_argument || frame->argument == 0) && together <= MOST_BYTES &&
           word_at(head + 20) == 0;
}

/* A part of length 0 may have any pointer, so it has none. */
static uint8_t *part_at(size_t at, size_t length) { return length > 0 ? bytes + at : NULL; }

static uint64_t ask(const struct frame *frame) {
    size_t book_len = frame->book_len, checkpoint_len = frame->checkpoint_len;
    size_t out_at = HEAD + book_len + checkpoint_len, out_len = frame->out_len;
    const uint8_t *book = part_at(HEAD, book_len);
    const uint8_t *checkpoint = part_at(HEAD + book_len, checkpoint_len);
    uint8_t *out = part_at(out_at, out_len);
    switch (frame->call) {
    case FRESH:
        return wetherstep_fresh(book, book_len, out, out_len);
    case WAKE:
        return wetherstep_wake(book, book_len, checkpoint, checkpoint_len, frame->argument, out,
                               out_len);
    case REPORT:
        return wetherstep_report(book, book_len, checkpoint, checkpoint_len, numbers + FIRST);
    case RECORD:
        return wetherstep_record(book, book_len, frame->argument, numbers + FIRST);
    default:
        return wetherstep_left(book, book_len, checkpoint, checkpoint_len);
    }
}

/* How many numbers an answer with this reply has. */
static size_t filled(unsigned call, uint64_t reply) {
    int is_accepted = reply % 256 == 0, is_aside = reply >> 8 & 255;
    if (call == REPORT && is_accepted)
        return WETHERSTEP_FIGURES;
    if (call == RECORD && is_accepted && !is_aside && (reply >> 16 & 255) != NO_SUCH_RECORD)
        return MASSES;
    return 0;
}

static int is_junk(size_t from, size_t to) {
    uint64_t junk;
    memset(&junk, JUNK, sizeof junk);
    while (from < to && numbers[from] == junk)
        from++;
    return from == to;
}

/* All but the output buffer is as it was, in the frame and behind it. */
static int is_kept(const struct frame *frame) {
    size_t out_at = 1 + HEAD + frame->book_len + frame->checkpoint_len;
    size_t behind = out_at + frame->out_len;
    return memcmp(room, before, out_at) == 0 &&
           memcmp(room + behind, before + behind, GUARD) == 0 && is_junk(0, FIRST) &&
           is_junk(FIRST + (frame->call == RECORD ? MASSES : WETHERSTEP_FIGURES), NUMBERS);
}

static void answer(const struct frame *frame, unsigned long serial) {
    size_t out_at = HEAD + frame->book_len + frame->checkpoint_len;
    uint8_t told[ANSWER] = {0};
    memset(bytes + out_at + frame->out_len, JUNK, GUARD);
    memcpy(before, room, 1 + out_at + frame->out_len + GUARD);
    memset(numbers, JUNK, sizeof numbers);
    uint64_t reply = ask(frame);
    if (!is_kept(frame))
        stop_at(serial, "made a call write outside of its buffers");
    /* Number, reason, method, ledger and count stand in the answer as in the reply, and the decision
       in byte 48 is the sixth figure. */
    put(told, reply);
    size_t count = filled(frame->call, reply);
    for (size_t i = 0; i < count; i++)
        put(told + 8 + 8 * i, numbers[FIRST + i]);
    told[49] |= !is_junk(FIRST + count, NUMBERS);
    give(told, ANSWER);
    give(bytes + out_at, frame->out_len);
}

/* Reads the next frame, if there is one. */
static int next(struct frame *frame, unsigned long serial) {
    size_t got = take(bytes, HEAD);
    if (got == 0)
        return 0;
    if (got < HEAD)
        stop_at(serial, "is cut short");
    if (!read_head(frame))
        stop_at(serial, "has a head that breaks the rules");
    size_t length = frame->book_len + frame->checkpoint_len + frame->out_len;
    if (take(bytes + HEAD, length) < length)
        stop_at(serial, "is cut short");
    return 1;
}

int main(void) {
    struct frame frame;
    for (unsigned long serial = 0; next(&frame, serial); serial++)
        answer(&frame, serial);
    return 0;
}
