/* Times passes of a point from C, by the clock: see bench/README.md.
 *
 *     speed KIND THREADS PASSES
 *
 * prints nanoseconds a pass, over all threads, and the bytes that a pass takes more of memory.
 * Threads share one node and take turns by a mutex, unless each has a node of its own. */
#define _POSIX_C_SOURCE 200809L
#include "failreg.h"
#include "timed.h"

#include <string.h>

static const char NAME[] = "some.point";
static failreg node = FAILREG_CLOSED_NODE;
static pthread_mutex_t mutex = PTHREAD_MUTEX_INITIALIZER;
static uint32_t points[MOST_POINTS];

/* A node of a thread's own, with no other on its lines of the processors' memory. */
static struct own {
    failreg node;
    uint32_t point;
    uint8_t apart[256 - sizeof(failreg) - sizeof(uint32_t)];
} owns[MOST_THREADS];

/* The mutex, for a thread that shares the node. */
static void take(const struct share *share)
{
    unsigned looks = 0;
    if (share->threads == 1)
        return;
    while (pthread_mutex_trylock(&mutex) != 0)
        if (!failreg_look_again(&looks)) {
            pthread_mutex_lock(&mutex);
            break;
        }
}

static void leave(const struct share *share)
{
    if (share->threads > 1)
        pthread_mutex_unlock(&mutex);
}

/* Whether a pass came to a return. */
static bool is_failing(uint32_t status, const failreg_act *act)
{
    if (status != FAILREG_OK)
        stop("a pass was refused");
    return act->outcome == FAILREG_OUTCOME_ACT && act->task == FAILREG_TASK_RETURN;
}

static void *pass(void *given)
{
    const struct share *share = given;
    volatile long failed = 0;
    failreg_act act;
    for (long i = 0; i < share->passes; i++) {
        take(share);
        uint32_t status = failreg_pass(&node, NAME, sizeof NAME - 1, &act);
        leave(share);
        failed += is_failing(status, &act);
    }
    return NULL;
}

static void *pass_at(void *given)
{
    const struct share *share = given;
    volatile long failed = 0;
    failreg_act act;
    for (long i = 0; i < share->passes; i++) {
        take(share);
        uint32_t status = failreg_pass_at(&node, points[0], &act);
        leave(share);
        failed += is_failing(status, &act);
    }
    return NULL;
}

/* All points in turn. */
static void *pass_many(void *given)
{
    const struct share *share = given;
    volatile long failed = 0;
    failreg_act act;
    for (long i = 0; i < share->passes; i++) {
        take(share);
        uint32_t status = failreg_pass_at(&node, points[i % MOST_POINTS], &act);
        leave(share);
        failed += is_failing(status, &act);
    }
    return NULL;
}

/* Of the thread's own node. */
static void *pass_own(void *given)
{
    const struct share *share = given;
    struct own *own = &owns[share->thread];
    volatile long failed = 0;
    failreg_act act;
    for (long i = 0; i < share->passes; i++)
        failed += is_failing(failreg_pass_at(&own->node, own->point, &act), &act);
    return NULL;
}

static void *look(void *given)
{
    const struct share *share = given;
    bool is_set;
    for (long i = 0; i < share->passes; i++) {
        take(share);
        uint32_t status = failreg_is_set(&node, NAME, sizeof NAME - 1, &is_set);
        leave(share);
        if (status != FAILREG_OK || is_set)
            stop("the point isn't as it was left");
    }
    return NULL;
}

static void set_at(failreg *there, const char *name, const char *actions)
{
    failreg_stamp stamp;
    if (failreg_set(there, name, strlen(name), actions, strlen(actions), &stamp) != FAILREG_OK)
        stop("a set was refused");
}

static void set(const char *name, const char *actions)
{
    set_at(&node, name, actions);
}

/* The point, beside another one that is set. */
static void set_one(const char *actions)
{
    set("other.point", "return");
    if (actions)
        set(NAME, actions);
    if (failreg_point(&node, NAME, sizeof NAME - 1, &points[0]) != FAILREG_OK)
        stop("the point has no number");
}

static void set_many(const char *actions)
{
    char name[16];
    for (int i = 0; i < MOST_POINTS; i++) {
        snprintf(name, sizeof name, "p%d", i);
        set(name, actions);
        if (failreg_point(&node, name, strlen(name), &points[i]) != FAILREG_OK)
            stop("a point has no number");
    }
}

static void open_node(failreg *closed)
{
    const uint8_t seed[32] = { 1 };
    if (failreg_open(closed, 0, 2, FAILREG_NO_CAP, seed) != FAILREG_OK)
        stop("no node");
}

static void set_own(const char *actions)
{
    for (int i = 0; i < MOST_THREADS; i++) {
        open_node(&owns[i].node);
        set_at(&owns[i].node, NAME, actions);
        if (failreg_point(&owns[i].node, NAME, sizeof NAME - 1, &owns[i].point) != FAILREG_OK)
            stop("a point has no number");
    }
}

static const struct {
    const char *kind;
    void (*start)(const char *);
    const char *actions; /* NULL: the point isn't set */
    void *(*pass)(void *);
} KINDS[] = {
    { "looked", set_one, NULL, look },
    { "unset", set_one, NULL, pass },
    { "unset-at", set_one, NULL, pass_at },
    { "uncounted", set_one, "return", pass },
    { "uncounted-at", set_one, "return", pass_at },
    { "counted", set_one, "1000000000*return", pass },
    { "counted-at", set_one, "1000000000*return", pass_at },
    { "chance", set_one, "50%return", pass },
    { "chance-at", set_one, "50%return", pass_at },
    { "many-at", set_many, "return", pass_many },
    { "own-at", set_own, "return", pass_own },
};

int main(int count, char **words)
{
    struct wanted wanted = wanted_by(count, words);
    open_node(&node);
    for (size_t i = 0; i < sizeof KINDS / sizeof KINDS[0]; i++)
        if (strcmp(wanted.kind, KINDS[i].kind) == 0) {
            KINDS[i].start(KINDS[i].actions);
            time_passes(&wanted, KINDS[i].pass);
            failreg_close(&node);
            return 0;
        }
    stop("no such kind");
}
