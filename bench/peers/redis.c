/* Times a count that processes share by Redis, by the clock: see bench/README.md.
 *
 *     redis KIND THREADS PASSES
 *
 * prints nanoseconds a pass, over all threads, and the bytes that a pass takes more of memory. Each
 * thread has a connection of its own to the port of 127.0.0.1 that BENCH_REDIS says. A pass is an
 * INCR, and an injection where the answer is at most the count; `piped` are sent 64 at once. */
#define _POSIX_C_SOURCE 200809L
#include "../timed.h"

#include <hiredis/hiredis.h>
#include <string.h>

enum { AT_ONCE = 64 };
static const long long COUNT = 1000000000;
static int port;

static redisContext *connected(void)
{
    redisContext *redis = redisConnect("127.0.0.1", port);
    if (!redis || redis->err)
        stop("no Redis at the port of BENCH_REDIS");
    return redis;
}

/* Whether the next answer is an injection. */
static int next_fails(redisContext *redis)
{
    redisReply *reply = NULL;
    if (redisGetReply(redis, (void **)&reply) != REDIS_OK || reply->type != REDIS_REPLY_INTEGER)
        stop("no number from Redis");
    int is_failing = reply->integer <= COUNT;
    freeReplyObject(reply);
    return is_failing;
}

static long passed(redisContext *redis, long passes)
{
    long failed = 0;
    for (long i = 0; i < passes; i++)
        if (redisAppendCommand(redis, "INCR some.point") != REDIS_OK)
            stop("no command to Redis");
    for (long i = 0; i < passes; i++)
        failed += next_fails(redis);
    return failed;
}

static void pass_by(const struct share *share, long at_once)
{
    redisContext *redis = connected();
    volatile long failed = 0;
    for (long left = share->passes; left > 0; left -= at_once)
        failed += passed(redis, left < at_once ? left : at_once);
    redisFree(redis);
}

static void *pass(void *share)
{
    pass_by(share, 1);
    return NULL;
}

static void *pass_piped(void *share)
{
    pass_by(share, AT_ONCE);
    return NULL;
}

int main(int count, char **words)
{
    struct wanted wanted = wanted_by(count, words);
    const char *said = getenv("BENCH_REDIS");
    port = said ? atoi(said) : 6379;
    if (strcmp(wanted.kind, "counted") == 0)
        time_passes(&wanted, pass);
    else if (strcmp(wanted.kind, "piped") == 0)
        time_passes(&wanted, pass_piped);
    else
        stop("no such kind");
    return 0;
}
