/* How long a round of sharing takes at a node of 32 that knows 256 points of 16 counted terms, by what
 * the others passed since the round before. The node has a process of its own, as it would; the others
 * share one. Needs the library that embedding/build leaves:
 *
 *     cc -O2 -I embedding bench/share.c embedding/lib/libfailreg.a -o /tmp/share && /tmp/share
 *
 * Each line has the best of eleven rounds, in microseconds. */
#include "failreg.h"

#include <stdio.h>
#include <stdlib.h>
#include <string.h>
#include <sys/mman.h>
#include <sys/wait.h>
#include <time.h>
#include <unistd.h>

enum { NODES = 32, POINTS = 256, TERMS = 16, ROUNDS = 11 };

/* What is measured: who sets the points, with which count of each term, and whether its rights are spread; how many
 * nodes move a right of each to the last one; and how many points the others pass before each round, but for so many of
 * the last nodes that pass none, and whether node 0 passes all. */
struct line {
    const char *what;
    int setter, count;
    bool is_spread;
    int movers, points, quiet;
    bool is_passer;
};

static failreg nodes[NODES];
static const uint8_t SEED[32] = { 1 };

static void must(uint32_t status)
{
    if (status != FAILREG_OK) {
        fprintf(stderr, "share.c: refused: %s\n", failreg_strerror(status));
        exit(1);
    }
}

static double microseconds(void)
{
    struct timespec now;
    clock_gettime(CLOCK_MONOTONIC, &now);
    return (double)now.tv_sec * 1e6 + (double)now.tv_nsec / 1e3;
}

static size_t name_of(int point, char *into)
{
    return (size_t)sprintf(into, "a_point_of_many.%03d", point);
}

/* What lies between the two processes: a message, and whose turn it is. */
static struct { size_t length; uint8_t bytes[1 << 24]; } *between;
static int to_node[2], to_others[2];

static void hand_over(const int turn[2])
{
    if (write(turn[1], "", 1) != 1)
        exit(1);
}

/* A process whose other one has ended ends too. */
static void await(const int turn[2])
{
    char byte;
    if (read(turn[0], &byte, 1) != 1)
        exit(1);
}

static void write_message(int from, int to)
{
    must(failreg_emit(&nodes[from], (uint8_t)to));
    between->length = failreg_fetch(&nodes[from], (char *)between->bytes, sizeof between->bytes);
}

static void take_message(int at)
{
    bool changed;
    must(failreg_deliver(&nodes[at], between->bytes, between->length, &changed));
}

static void open_nodes(int first, int end)
{
    for (int n = first; n < end; n++)
        must(failreg_open(&nodes[n], (uint8_t)n, NODES, FAILREG_NO_CAP, SEED));
}

/* All points at the setter, whose rights are its own, or those of all alike. */
static void set_points(const struct line *it)
{
    char actions[TERMS * 16] = "", name[32];
    for (int term = 0; term < TERMS; term++)
        sprintf(actions + strlen(actions), "%s0%%%d*off", term ? "->" : "", it->count);
    for (int point = 0; point < POINTS; point++) {
        failreg_stamp stamp;
        size_t length = name_of(point, name);
        must((it->is_spread ? failreg_set_spread : failreg_set)(&nodes[it->setter], name, length, actions,
                                                                strlen(actions), &stamp));
    }
}

/* Nodes behind the setter, so many, each move a right to each term to the last node. */
static void move_rights(const struct line *it)
{
    char name[32];
    uint64_t total;
    for (int n = it->setter + 1; n <= it->setter + it->movers; n++)
        for (int point = 0; point < POINTS; point++) {
            size_t length = name_of(point, name);
            for (int term = 0; term < TERMS; term++)
                must(failreg_shift(&nodes[n], name, length, (uint8_t)term, NODES - 1, 1, &total));
        }
}

static void pass_points(int node, int points)
{
    char name[32];
    failreg_act act;
    for (int point = 0; point < points; point++) {
        size_t length = name_of(point, name);
        must(failreg_pass(&nodes[node], name, length, &act));
    }
}

/* The process of the others: they hear of the points, some of them move rights, they pass so many points before each
 * round, and each tells node 0, and hears that this came, so that it tells no more of it. */
static void be_others(const struct line *it)
{
    int setter = it->setter;
    open_nodes(1, NODES);
    if (setter)
        set_points(it);
    for (int n = 1; n < NODES; n++) {
        if (setter) {
            write_message(setter, n == setter ? 0 : n);
            if (n == setter)
                hand_over(to_node);
        }
        if (!setter || n == setter)
            await(to_others);
        if (n != setter)
            take_message(n);
        if (!setter)
            hand_over(to_node);
    }
    move_rights(it);
    for (int round = 0; it->points && round < ROUNDS; round++)
        for (int n = 1; n < NODES; n++) {
            if (n < NODES - it->quiet)
                pass_points(n, it->points);
            write_message(n, 0);
            hand_over(to_node);
            await(to_others);
            take_message(n);
            must(failreg_forget(&nodes[n]));
        }
    exit(0);
}

/* Node 0 hears of the points, or tells the others of them. */
static void begin(const struct line *it)
{
    open_nodes(0, 1);
    if (it->setter) {
        await(to_node);
        take_message(0);
        hand_over(to_others);
        return;
    }
    set_points(it);
    for (int n = 1; n < NODES; n++) {
        write_message(0, n);
        hand_over(to_others);
        await(to_node);
    }
}

static void hear_others(void)
{
    for (int n = 1; n < NODES; n++) {
        await(to_node);
        take_message(0);
        write_message(0, n);
        hand_over(to_others);
    }
}

static void measure(const struct line *it)
{
    double best = 1e18;
    uint64_t shifts = 0, most = 0;
    int status = 0;
    pid_t others = pipe(to_node) || pipe(to_others) ? -1 : fork();
    if (others == 0) {
        close(to_node[0]), close(to_others[1]);
        be_others(it);
    }
    close(to_node[1]), close(to_others[0]);
    begin(it);
    for (int round = 0; round < ROUNDS; round++) {
        if (it->is_passer)
            pass_points(0, POINTS);
        if (it->points)
            hear_others();
        double begun = microseconds();
        must(failreg_share(&nodes[0], &shifts));
        double took = microseconds() - begun;
        best = took < best ? took : best;
        most = shifts > most ? shifts : most;
        must(failreg_forget(&nodes[0]));
    }
    failreg_close(&nodes[0]);
    close(to_node[0]), close(to_others[1]);
    if (waitpid(others, &status, 0) < 0 || status) {
        fprintf(stderr, "share.c: the process of the others failed\n");
        exit(1);
    }
    printf("%-70s %6.0f   %6llu shifts at most\n", it->what, best, (unsigned long long)most);
    fflush(stdout);
}

static const struct line LINES[] = {
    { "nobody passed; the node has no right", .setter = 1, .count = 64 },
    { "31 nodes passed 8 points; the node has no right", .setter = 1, .count = 64, .points = 8 },
    { "31 nodes passed all points; the node has no right", .setter = 1, .count = 64, .points = POINTS },
    { "nobody passed; the node has all rights", .setter = 0, .count = 64 },
    { "31 nodes passed 8 points; each node has rights", .setter = 1, .count = 64, .is_spread = true, .points = 8 },
    { "31 nodes passed all points; each node has rights", .setter = 1, .count = 64, .is_spread = true, .points = POINTS },
    { "the same, and 1 more node moved rights of each term", .setter = 1, .count = 64, .is_spread = true, .movers = 1,
      .points = POINTS },
    { "the same, and 4 more", .setter = 1, .count = 64, .is_spread = true, .movers = 4, .points = POINTS },
    { "31 nodes passed 8 points; the node has all rights at first", .setter = 0, .count = 64, .points = 8 },
    { "31 nodes passed all points; the node has all rights at first", .setter = 0, .count = 64, .points = POINTS },
    { "the same, but for one node, which never passes and has no right", .setter = 0, .count = 64, .points = POINTS,
      .quiet = 1 },
    { "all passed all points; one has no right, and each other the one it keeps", .setter = 0, .count = NODES - 1,
      .is_spread = true, .points = POINTS, .is_passer = true },
};

int main(void)
{
    between = mmap(NULL, sizeof *between, PROT_READ | PROT_WRITE, MAP_SHARED | MAP_ANONYMOUS, -1, 0);
    if (between == MAP_FAILED)
        return 1;
    for (size_t n = 0; n < sizeof LINES / sizeof *LINES; n++)
        measure(&LINES[n]);
    return 0;
}
