/* Times what a program would write that counts its injections by itself, by the clock: see bench/README.md.
 *
 *     mutex KIND THREADS PASSES
 *
 * prints nanoseconds a pass, over all threads, and the bytes that a pass takes more of memory. All
 * threads share one counter, of one process, and take turns by a mutex. */
#define _POSIX_C_SOURCE 200809L
#include "../timed.h"

#include <string.h>

static pthread_mutex_t mutex = PTHREAD_MUTEX_INITIALIZER;
static long left = 1000000000;

static void *pass(void *given)
{
    volatile long failed = 0;
    for (long i = 0; i < ((struct share *)given)->passes; i++) {
        pthread_mutex_lock(&mutex);
        int is_failing = left > 0;
        left -= is_failing;
        pthread_mutex_unlock(&mutex);
        failed += is_failing;
    }
    return NULL;
}

int main(int count, char **words)
{
    struct wanted wanted = wanted_by(count, words);
    if (strcmp(wanted.kind, "counted") != 0)
        stop("no such kind");
    time_passes(&wanted, pass);
    return 0;
}
