/* The parts of a drill of 16 nodes, which `failreg audit` takes: see bench/README.md.
 *
 *     ring passes|forwards|backwards CALLS FOLDER
 *
 * Each node sets a point and passes it; or the nodes stand in a ring, where each takes in the last
 * message and makes one to the next node, or to the one before. The first passes a point each time
 * that a message comes round, so that no two messages have the same bytes. */
#define _POSIX_C_SOURCE 200809L
#include "failreg.h"
#include "timed.h"

#include <string.h>

enum { NODES = 16, MOST_BYTES = 1 << 16 };

static failreg nodes[NODES];
static FILE *parts[NODES];
static char bytes[MOST_BYTES];

static void want(uint32_t status)
{
    if (status != FAILREG_OK)
        stop(failreg_strerror(status));
}

/* Writes what a node left to be fetched as a line of its part. */
static void write_line(int node)
{
    size_t length = failreg_fetch(&nodes[node], bytes, sizeof bytes);
    if (length > sizeof bytes || fwrite(bytes, 1, length, parts[node]) != length || fputc('\n', parts[node]) == EOF)
        stop("a line can't be written");
}

/* Writes the last call of a node. */
static void keep(int node)
{
    uint64_t calls;
    want(failreg_calls(&nodes[node], &calls));
    want(failreg_entry(&nodes[node], calls - 1));
    write_line(node);
}

static void open_node(int node, const char *folder)
{
    const uint8_t seed[32] = { 7 };
    char path[4096];
    snprintf(path, sizeof path, "%s/part%d", folder, node);
    parts[node] = fopen(path, "w");
    if (!parts[node])
        stop("no part");
    want(failreg_open(&nodes[node], (uint8_t)node, NODES, FAILREG_NO_CAP, seed));
    want(failreg_part_head(&nodes[node], "", 0));
    write_line(node);
}

static void set(int node)
{
    failreg_stamp stamp;
    want(failreg_set(&nodes[node], "p", 1, "4000000000*print(x)", 19, &stamp));
    keep(node);
}

static void pass(int node)
{
    failreg_act act;
    want(failreg_pass(&nodes[node], "p", 1, &act));
    keep(node);
}

/* Makes a message, takes it in at its node, and writes both. */
static void send_on(int node, int to)
{
    static uint8_t message[MOST_BYTES];
    bool changed;
    want(failreg_emit(&nodes[node], (uint8_t)to));
    size_t length = failreg_fetch(&nodes[node], message, sizeof message);
    keep(node);
    want(failreg_deliver(&nodes[to], message, length, &changed));
    keep(to);
}

static void all_pass(long calls)
{
    for (int node = 0; node < NODES; node++) {
        set(node);
        for (long call = 1; call < calls / NODES; call++)
            pass(node);
    }
}

static void go_round(int step, long calls)
{
    int node = 0;
    set(node);
    for (long made = 1; made < calls; made += 2) {
        int to = (node + step) % NODES;
        if (node == 0) {
            pass(node);
            made++;
        }
        send_on(node, to);
        node = to;
    }
}

int main(int count, char **words)
{
    if (count != 4)
        stop("usage: ring passes|forwards|backwards CALLS FOLDER");
    long calls = atol(words[2]);
    for (int node = 0; node < NODES; node++)
        open_node(node, words[3]);
    if (strcmp(words[1], "passes") == 0)
        all_pass(calls);
    else if (strcmp(words[1], "forwards") == 0)
        go_round(1, calls);
    else if (strcmp(words[1], "backwards") == 0)
        go_round(NODES - 1, calls);
    else
        stop("no such drill");
    for (int node = 0; node < NODES; node++)
        if (fclose(parts[node]) != 0)
            stop("a part can't be written");
    return 0;
}
