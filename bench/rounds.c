/* Rounds of gossip among the nodes of one program: see bench/README.md.
 *
 *     rounds NODES CHANGED ROUNDS
 *
 * The nodes know 256 points with a count each. In a round each of them, one after the other, makes a
 * message to every other node, and takes in what the others made for it since its last turn. Before
 * each round the first node passes the first CHANGED points. It prints the messages, their bytes, and
 * the nanoseconds that they took, made and taken in, without the passes and without the first rounds,
 * in which all nodes learn of the points and of what the others know. */
#define _POSIX_C_SOURCE 200809L
#include "failreg.h"
#include "timed.h"

#include <string.h>

enum { MOST_NODES = 32, FIRST_ROUNDS = 4 };

/* The messages that wait for a node, and how many there are. */
struct mailbox {
    struct message {
        uint8_t *bytes;
        size_t length;
    } messages[MOST_NODES];
    int count;
};

static failreg nodes[MOST_NODES];
static struct mailbox mailboxes[MOST_NODES];
static uint32_t points[MOST_POINTS];
static int node_count;

static void want(uint32_t status)
{
    if (status != FAILREG_OK)
        stop(failreg_strerror(status));
}

static void load_points(void)
{
    char text[8192] = "", name[16];
    uint16_t entries;
    for (int i = 0; i < MOST_POINTS; i++) {
        size_t end = strlen(text);
        snprintf(text + end, sizeof text - end, "p%d=1000000000*off;", i);
    }
    want(failreg_load(&nodes[0], text, strlen(text), &entries));
    for (int i = 0; i < MOST_POINTS; i++) {
        snprintf(name, sizeof name, "p%d", i);
        want(failreg_point(&nodes[0], name, strlen(name), &points[i]));
    }
}

/* How long the message is. */
static size_t tell(int from, int to)
{
    struct mailbox *box = &mailboxes[to];
    want(failreg_emit(&nodes[from], (uint8_t)to));
    size_t length = failreg_fetch(&nodes[from], "", 0);
    uint8_t *bytes = malloc(length);
    if (!bytes)
        stop("no memory");
    failreg_fetch(&nodes[from], bytes, length);
    box->messages[box->count++] = (struct message){ bytes, length };
    return length;
}

static void hear(int node)
{
    struct mailbox *box = &mailboxes[node];
    bool changed;
    for (int i = 0; i < box->count; i++) {
        want(failreg_deliver(&nodes[node], box->messages[i].bytes, box->messages[i].length, &changed));
        free(box->messages[i].bytes);
    }
    box->count = 0;
}

/* The bytes of all messages of a node's turn. */
static size_t turn(int node)
{
    size_t length = 0;
    for (int to = 0; to < node_count; to++)
        if (to != node)
            length += tell(node, to);
    hear(node);
    return length;
}

int main(int count, char **words)
{
    const uint8_t seed[32] = { 7 };
    failreg_act act;
    if (count != 4)
        stop("usage: rounds NODES CHANGED ROUNDS");
    node_count = atoi(words[1]);
    int changed = atoi(words[2]);
    long rounds = atol(words[3]), messages = 0;
    if (node_count < 1 || node_count > MOST_NODES || changed < 0 || changed > MOST_POINTS)
        stop("1 to 32 nodes, and 256 points at most");
    for (int i = 0; i < node_count; i++)
        want(failreg_open(&nodes[i], (uint8_t)i, (uint8_t)node_count, FAILREG_NO_CAP, seed));
    load_points();
    size_t length = 0;
    double took = 0;
    for (long round = 0; round < FIRST_ROUNDS + rounds; round++) {
        for (int i = 0; round > 0 && i < changed; i++)
            want(failreg_pass_at(&nodes[0], points[i], &act));
        double begun = nanoseconds();
        size_t bytes = 0;
        for (int i = 0; i < node_count; i++)
            bytes += turn(i);
        if (round < FIRST_ROUNDS)
            continue;
        took += nanoseconds() - begun;
        length += bytes;
        messages += (long)node_count * (node_count - 1);
    }
    printf("%ld %zu %.0f\n", messages, length, took);
    return 0;
}
