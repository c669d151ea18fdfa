/* The largest message that a node of 32 accepts, delivered and emitted again.
 *
 *     great_message plain|grants NAMES TIMES
 *
 * Each name has 128 bytes, a string of 1,024 with 16 counted terms, and every cell that other nodes
 * can send a node: hits, executions and transfers, and with `grants` also grants. A new node
 * accepts the message this many times, and emits one to a third node, which must be the same to the
 * byte. It prints the bytes, and the minimum nanoseconds of delivering and emitting. */
#define _POSIX_C_SOURCE 200809L
#include "failreg.h"

#include <stdio.h>
#include <stdlib.h>
#include <string.h>
#include <time.h>

enum { NODES = 32, TERMS = 16, NAME = 128, TEXT = 1024, HEAD = 30, MOST_NAMES = 256 };
enum { READER = 0, SETTER = 1, THIRD = 2 };

/* A message on its way. */
static uint8_t *bytes;
static size_t length;

static void stop(const char *why)
{
    fprintf(stderr, "great_message: %s\n", why);
    exit(1);
}

static void want(uint32_t status)
{
    if (status != FAILREG_OK)
        stop(failreg_strerror(status));
}

/* A number of this many bytes, the most significant first. */
static void put(uint64_t number, int count)
{
    for (int i = count - 1; i >= 0; i--)
        bytes[length++] = (uint8_t)(number >> (8 * i));
}

static void fill(char letter, int count)
{
    memset(bytes + length, letter, (size_t)count);
    length += (size_t)count;
}

/* 16 terms of 62 bytes, and of 64 the last, with an arrow between them. */
static void put_text(void)
{
    for (int term = 0; term < TERMS; term++) {
        static const char front[] = "4000000000*print(";
        memcpy(bytes + length, front, sizeof front - 1);
        length += sizeof front - 1;
        fill('x', (term < TERMS - 1 ? 62 : 64) - (int)sizeof front);
        put(')', 1);
        if (term < TERMS - 1)
            put('-' << 8 | '>', 2);
    }
}

/* One of each term and each node but the reader. */
static void put_cells(void)
{
    put(TERMS * (NODES - 1), 2);
    for (int term = 0; term < TERMS; term++)
        for (int node = 1; node < NODES; node++) {
            put((uint64_t)(term << 8 | node), 2);
            put(1, 8);
        }
}

/* What each node except the reader transferred to each other one: the setter enough for what they
 * transfer and run. */
static void put_shifts(void)
{
    put(TERMS * (NODES - 1) * (NODES - 1), 2);
    for (int term = 0; term < TERMS; term++)
        for (int from = 1; from < NODES; from++)
            for (int to = 0; to < NODES; to++)
                if (to != from) {
                    put((uint64_t)(term << 16 | from << 8 | to), 3);
                    put(from == SETTER ? 1000000 : 1, 8);
                }
}

static void put_name(int number, bool grants)
{
    put(NAME, 1);
    put((uint64_t)('a' + number / 16), 1);
    put((uint64_t)('a' + number % 16), 1);
    fill('x', NAME - 2);
    put(1, 8);
    put(SETTER << 8 | 1, 2);
    put(TEXT, 2);
    put_text();
    put(NODES - 1, 1);
    for (int node = 1; node < NODES; node++) {
        put((uint64_t)node, 1);
        put(UINT64_MAX, 8);
    }
    put_cells();
    put_shifts();
    if (grants)
        put_cells();
}

/* From the setter to the reader, which knows nothing yet. */
static void make(int names, bool grants)
{
    bytes = malloc((size_t)HEAD + (size_t)names * 200000);
    if (!bytes)
        stop("out of memory");
    memcpy(bytes, grants ? "FPG2" : "FPG1", 4);
    length = 4;
    put(SETTER << 8 | READER, 2);
    put(0, 8);
    put(1, 8);
    put(0, 8);
    put((uint64_t)names, 2);
    for (int number = 0; number < names; number++)
        put_name(number, grants);
}

static double nanoseconds(void)
{
    struct timespec now;
    clock_gettime(CLOCK_MONOTONIC, &now);
    return (double)now.tv_sec * 1e9 + (double)now.tv_nsec;
}

/* Returns whether the fetched message has the same content as this one. */
static bool tells_the_same(failreg *node)
{
    uint8_t *other = malloc(length);
    if (!other)
        stop("out of memory");
    bool is_same = failreg_fetch(node, other, length) == length && memcmp(bytes, other, 4) == 0
        && memcmp(bytes + HEAD, other + HEAD, length - HEAD) == 0;
    free(other);
    return is_same;
}

int main(int count, char **words)
{
    const uint8_t seed[32] = { 7 };
    if (count != 4 || (strcmp(words[1], "plain") != 0 && strcmp(words[1], "grants") != 0))
        stop("usage: great_message plain|grants NAMES TIMES");
    int names = atoi(words[2]);
    long times = atol(words[3]);
    if (names < 1 || names > MOST_NAMES || times < 1)
        stop("1 to 256 names, once or more often");
    make(names, strcmp(words[1], "grants") == 0);
    double least_read = 1e18, least_written = 1e18;
    for (; times > 0; times--) {
        failreg node = FAILREG_CLOSED_NODE;
        bool changed;
        want(failreg_open(&node, READER, NODES, FAILREG_NO_CAP, seed));
        double begun = nanoseconds();
        want(failreg_deliver(&node, bytes, length, &changed));
        double read = nanoseconds();
        want(failreg_emit(&node, THIRD));
        double written = nanoseconds();
        if (!changed || !tells_the_same(&node))
            stop("the message that was written tells something else");
        failreg_close(&node);
        least_read = read - begun < least_read ? read - begun : least_read;
        least_written = written - read < least_written ? written - read : least_written;
    }
    printf("%zu %.0f %.0f\n", length, least_read, least_written);
    free(bytes);
    return 0;
}
