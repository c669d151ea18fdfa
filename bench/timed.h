/* What the programs of C share that time passes: see bench/README.md. */
#ifndef TIMED_H
#define TIMED_H

#include <pthread.h>
#include <stdio.h>
#include <stdlib.h>
#include <time.h>
#include <unistd.h>

enum { MOST_THREADS = 64, MOST_POINTS = 256 };

static inline void stop(const char *why)
{
    fprintf(stderr, "%s\n", why);
    exit(1);
}

/* What the words ask for. */
struct wanted {
    const char *kind;
    int threads;
    long passes; /* of each thread */
};

static inline struct wanted wanted_by(int count, char **words)
{
    struct wanted wanted;
    if (count != 4)
        stop("usage: KIND THREADS PASSES");
    wanted.kind = words[1];
    wanted.threads = atoi(words[2]);
    if (wanted.threads < 1 || wanted.threads > MOST_THREADS)
        stop("1 to 64 threads");
    wanted.passes = atol(words[3]) / wanted.threads;
    return wanted;
}

static inline double nanoseconds(void)
{
    struct timespec now;
    clock_gettime(CLOCK_MONOTONIC, &now);
    return (double)now.tv_sec * 1e9 + (double)now.tv_nsec;
}

static inline double bytes_resident(void)
{
    long all, resident;
    FILE *file = fopen("/proc/self/statm", "r");
    if (!file || fscanf(file, "%ld %ld", &all, &resident) != 2)
        stop("no /proc/self/statm");
    fclose(file);
    return (double)resident * (double)sysconf(_SC_PAGESIZE);
}

/* A thread's share of the passes. */
struct share {
    int thread; /* from 0 */
    int threads;
    long passes;
};

/* Passes by all threads, the first of which is this one, and prints nanoseconds a pass, of all
 * together, and the bytes that a pass takes more of memory. */
static inline void time_passes(const struct wanted *wanted, void *(*pass)(void *))
{
    pthread_t threads[MOST_THREADS];
    struct share shares[MOST_THREADS];
    for (int t = 0; t < wanted->threads; t++)
        shares[t] = (struct share){ t, wanted->threads, wanted->passes };
    double resident = bytes_resident(), begun = nanoseconds();
    for (int t = 1; t < wanted->threads; t++)
        if (pthread_create(&threads[t], NULL, pass, &shares[t]) != 0)
            stop("no thread");
    pass(&shares[0]);
    for (int t = 1; t < wanted->threads; t++)
        pthread_join(threads[t], NULL);
    double took = nanoseconds() - begun, made = (double)(wanted->passes * wanted->threads);
    printf("%.2f %.2f\n", took / made, (bytes_resident() - resident) / made);
}

#endif
