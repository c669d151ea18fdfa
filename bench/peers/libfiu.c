/* Times passes of points of libfiu, by the clock: see bench/README.md.
 *
 *     libfiu KIND THREADS PASSES
 *
 * prints nanoseconds a pass, over all threads, and the bytes that a pass takes more of memory. */
#define _POSIX_C_SOURCE 200809L
#define FIU_ENABLE
#include "../timed.h"

#include <fiu-control.h>
#include <fiu.h>
#include <string.h>

static char names[MOST_POINTS][16];

/* One point, by every thread. */
static void *pass_one(void *share)
{
    volatile long failed = 0;
    for (long i = 0; i < ((struct share *)share)->passes; i++)
        failed += fiu_fail("some/point") != 0;
    return NULL;
}

/* A point of its own for each thread. */
static void *pass_own(void *share)
{
    const char *name = names[((struct share *)share)->thread];
    volatile long failed = 0;
    for (long i = 0; i < ((struct share *)share)->passes; i++)
        failed += fiu_fail(name) != 0;
    return NULL;
}

/* All points in turn. */
static void *pass_many(void *share)
{
    volatile long failed = 0;
    for (long i = 0; i < ((struct share *)share)->passes; i++)
        failed += fiu_fail(names[i % MOST_POINTS]) != 0;
    return NULL;
}

static void enable(const char *name)
{
    if (fiu_enable(name, 1, NULL, 0) != 0)
        stop("a point isn't enabled");
}

static void enable_nothing(void)
{
}

static void enable_other(void)
{
    enable("other/point");
}

static void enable_one(void)
{
    enable_other();
    enable("some/point");
}

static void enable_half(void)
{
    enable_other();
    if (fiu_enable_random("some/point", 1, NULL, 0, 0.5f) != 0)
        stop("a point isn't enabled");
}

static void enable_many(void)
{
    for (int i = 0; i < MOST_POINTS; i++)
        enable(names[i]);
}

static const struct {
    const char *kind;
    void (*enable)(void);
    void *(*pass)(void *);
} KINDS[] = {
    { "nothing-set", enable_nothing, pass_one },
    { "unset", enable_other, pass_one },
    { "uncounted", enable_one, pass_one },
    { "chance", enable_half, pass_one },
    { "own", enable_many, pass_own },
    { "many", enable_many, pass_many },
};

int main(int count, char **words)
{
    struct wanted wanted = wanted_by(count, words);
    for (int i = 0; i < MOST_POINTS; i++)
        snprintf(names[i], sizeof names[i], "p%d", i);
    if (fiu_init(0) != 0)
        stop("no libfiu");
    for (size_t i = 0; i < sizeof KINDS / sizeof KINDS[0]; i++)
        if (strcmp(wanted.kind, KINDS[i].kind) == 0) {
            KINDS[i].enable();
            time_passes(&wanted, KINDS[i].pass);
            return 0;
        }
    stop("no such kind");
}
