/* A node that sends its messages through Redis: each node has a list there, its mailbox, into which the others put
 * messages and from which it takes them. Other brokers work in the same way. The program carries what failreg_emit
 * makes to failreg_deliver_at; it may lose, delay, duplicate and reorder all of it (docs/how-to/custom-transport.md).
 *
 *     cc -I embedding embedding/c/over_redis.c embedding/lib/libfailreg.a -lhiredis -lpthread -o over_redis
 *     FAILREG_NODE=1/3 FAILREG_RUN=monday FAILREG_REDIS=127.0.0.1:6379 ./over_redis
 *
 * A line of standard input is `save 3`, which saves three orders, unless the point `save` loses them, or a request,
 * such as `PUT /fail/save 5*return(disk full)->off`. The page lists the other environment variables: a password, and
 * what TLS needs. */
#include "failreg_point.h"

#include <hiredis/hiredis.h>
#ifdef WITH_TLS
#include <hiredis/hiredis_ssl.h>
#endif
#include <pthread.h>
#include <signal.h>
#include <stdarg.h>
#include <stdatomic.h>
#include <stdio.h>
#include <stdlib.h>
#include <string.h>
#include <sys/time.h>
#include <time.h>

enum { MOST_NODES = 32, MOST_MESSAGES = 64, KEPT_SECONDS = 3600, TICK = 50, LONGEST_REST = 5000 };

/* No thread holds its lock while it waits for Redis, so no order waits for Redis. */
static failreg_program program = FAILREG_PROGRAM;
static unsigned number, nodes;
static const char *address, *run;
static redisContext *redis;
static atomic_bool is_over;

static void stop(const char *why)
{
    fprintf(stderr, "over_redis: %s\n", why);
    exit(1);
}

static void must(uint32_t status)
{
    if (status != FAILREG_OK)
        stop(failreg_strerror(status));
}

/* Returns the bytes of failreg_fetch, with a zero after them. The caller frees it. */
static char *fetched(size_t *length)
{
    *length = failreg_fetch(&program.node, "", 0);
    char *bytes = malloc(*length + 1);
    if (bytes == NULL)
        stop("out of memory");
    failreg_fetch(&program.node, bytes, *length);
    bytes[*length] = 0;
    return bytes;
}

/* Returns Redis's reply. If it is an error, or there is none, closes the connection. */
static redisReply *ask(const char *format, ...)
{
    va_list words;
    va_start(words, format);
    redisReply *reply = redisvCommand(redis, format, words);
    va_end(words);
    if (reply != NULL && reply->type != REDIS_REPLY_ERROR)
        return reply;
    fprintf(stderr, "over_redis: %s: %s\n", address, reply != NULL ? reply->str : redis->errstr);
    if (reply != NULL)
        freeReplyObject(reply);
    redisFree(redis);
    redis = NULL;
    return NULL;
}

static bool is_done(redisReply *reply)
{
    if (reply != NULL)
        freeReplyObject(reply);
    return reply != NULL;
}

/* Encrypts the connection, if the environment requests it. */
static bool is_secured(const char *host)
{
    const char *trusted = getenv("FAILREG_REDIS_CA");
    if (trusted == NULL)
        return true;
#ifdef WITH_TLS
    static redisSSLContext *tls;
    redisSSLContextError error = REDIS_SSL_CTX_NONE;
    if (tls == NULL && redisInitOpenSSL() == REDIS_OK)
        tls = redisCreateSSLContext(trusted, NULL, getenv("FAILREG_REDIS_CERT"), getenv("FAILREG_REDIS_KEY"), host,
                                    &error);
    if (tls == NULL)
        stop(redisSSLContextGetError(error));
    return redisInitiateSSLWithContext(redis, tls) == REDIS_OK;
#else
    (void)host;
    stop("FAILREG_REDIS_CA is set, and this was compiled without -DWITH_TLS");
    return false;
#endif
}

static bool is_connected(void)
{
    const struct timeval two_seconds = { .tv_sec = 2 };
    const char *user = getenv("FAILREG_REDIS_USER"), *password = getenv("FAILREG_REDIS_PASSWORD");
    char host[256];
    int port;
    if (sscanf(address, "[%255[^]]]:%d", host, &port) != 2 && sscanf(address, "%255[^:]:%d", host, &port) != 2)
        stop("FAILREG_REDIS is as 127.0.0.1:6379 or [::1]:6379");
    redis = redisConnectWithTimeout(host, port, two_seconds);
    if (redis == NULL)
        stop("out of memory");
    if (redis->err || redisSetTimeout(redis, two_seconds) != REDIS_OK || !is_secured(host)) {
        fprintf(stderr, "over_redis: %s: %s\n", address, redis->errstr);
        redisFree(redis);
        redis = NULL;
        return false;
    }
    return password == NULL || is_done(user ? ask("AUTH %s %s", user, password) : ask("AUTH %s", password));
}

/* Puts a message into a mailbox, in front of the others, and trims it to the newest. */
static bool is_put(unsigned to, const char *message, size_t length)
{
    return is_done(ask("LPUSH failreg:%s:%u %b", run, to, message, length))
        && is_done(ask("LTRIM failreg:%s:%u 0 %d", run, to, MOST_MESSAGES - 1))
        && is_done(ask("EXPIRE failreg:%s:%u %d", run, to, KEPT_SECONDS));
}

/* Returns the milliseconds since 1970. */
static uint64_t now_ms(void)
{
    struct timespec now;
    timespec_get(&now, TIME_UTC);
    return (uint64_t)now.tv_sec * 1000 + (uint64_t)now.tv_nsec / 1000000;
}

static void deliver(const char *message, size_t length)
{
    char fault[128] = "";
    size_t fault_length;
    bool is_news;
    failreg *node = failreg_lock(&program);
    bool is_refused
        = failreg_deliver_at(node, (const uint8_t *)message, length, now_ms(), &is_news) != FAILREG_OK;
    if (is_refused)
        must(failreg_fault(node, fault, sizeof fault - 1, &fault_length));
    failreg_unlock(&program);
    if (is_refused)
        fprintf(stderr, "over_redis: a message is refused: %s\n", fault);
}

/* Accepts the messages of the mailbox, the newest first. */
static bool has_taken(void)
{
    bool is_message = true;
    for (int taken = 0; is_message && taken < MOST_MESSAGES; taken++) {
        redisReply *reply = ask("LPOP failreg:%s:%u", run, number);
        if (reply == NULL)
            return false;
        is_message = reply->type == REDIS_REPLY_STRING;
        if (is_message)
            deliver(reply->str, reply->len);
        freeReplyObject(reply);
    }
    return true;
}

/* Sends a peer what it lacks, if that is due. A mailbox also takes messages for a node that is gone: a peer that hasn't
 * acknowledged the last message is left alone for 2, 4, ... 64 rounds. */
static bool has_told(uint8_t to)
{
    uint8_t due;
    size_t length;
    char *message = NULL;
    failreg *node = failreg_lock(&program);
    must(failreg_due(node, to, &due));
    if (due == FAILREG_DUE_TELL && failreg_emit(node, to) == FAILREG_OK)
        message = fetched(&length);
    failreg_unlock(&program);
    if (message == NULL)
        return true;
    bool is_told = is_put(to, message, length);
    free(message);
    node = failreg_lock(&program);
    must(is_told ? failreg_told(node, to) : failreg_missed(node, to));
    failreg_unlock(&program);
    return is_told;
}

/* Receives and sends. Returns whether Redis was there. */
static bool has_carried(void)
{
    bool is_there = (redis != NULL || is_connected()) && has_taken();
    for (unsigned to = 0; is_there && to < nodes; to++)
        is_there = has_told((uint8_t)to);
    failreg *node = failreg_lock(&program);
    must(failreg_forget(node));
    failreg_unlock(&program);
    return is_there;
}

/* Exchanges messages until the program ends, and once more then. If Redis isn't there it is left alone, twice as long
 * each time. */
static void *carry(void *unused)
{
    int rest = TICK;
    for (bool is_last = false; !is_last;) {
        is_last = is_over;
        rest = has_carried() ? TICK : rest * 2 > LONGEST_REST ? LONGEST_REST : rest * 2;
        for (int rested = 0; rested < rest && !is_over; rested += TICK)
            nanosleep(&(struct timespec){ .tv_nsec = TICK * 1000000L }, NULL);
    }
    return unused;
}

/* Saves an order, unless the point loses it. */
static void save(void)
{
    char reason[FAILREG_TEXT_ROOM];
    if (failreg_eval(&program, "save", reason, sizeof reason))
        printf("lost: %s\n", reason);
    else
        puts("saved");
}

/* Handles a request of the HTTP interface at the node. */
static void request(const char *method, const char *path, const char *body)
{
    failreg_answered answered;
    size_t length;
    char *answer = NULL;
    failreg *node = failreg_lock(&program);
    uint32_t refusal = failreg_answer_at(node, method, strlen(method), path, strlen(path), (const uint8_t *)body,
                                         strlen(body), now_ms(), &answered);
    if (refusal == FAILREG_OK)
        answer = fetched(&length);
    failreg_hold(&program);
    failreg_unlock(&program);
    printf("%u %s\n", answered.status, answer != NULL ? answer : failreg_strerror(refusal));
    failreg_sent(&program);
    free(answer);
}

static void obey(char *line)
{
    char word[16], path[512];
    line[strcspn(line, "\n")] = 0;
    int rest = (int)strlen(line);
    if (strncmp(line, "save ", 5) == 0)
        for (long orders = atol(line + 5); orders > 0; orders--)
            save();
    else if (sscanf(line, "%15s %511s %n", word, path, &rest) == 2)
        request(word, path, line + rest);
    else
        puts("a line is as `save 3`, or as `GET /report`");
}

static const char *from_environment(const char *name)
{
    const char *value = getenv(name);
    if (value == NULL || value[0] == 0)
        stop("FAILREG_NODE, FAILREG_RUN and FAILREG_REDIS are needed, as 1/3, monday and 127.0.0.1:6379");
    return value;
}

int main(void)
{
    static const uint8_t seed[32] = { 1 };
    pthread_t carrier;
    char *line = NULL;
    size_t room = 0;
    signal(SIGPIPE, SIG_IGN);
    setvbuf(stdout, NULL, _IOLBF, 0);
    address = from_environment("FAILREG_REDIS");
    run = from_environment("FAILREG_RUN");
    if (sscanf(from_environment("FAILREG_NODE"), "%u/%u", &number, &nodes) != 2 || number >= nodes
        || nodes > MOST_NODES)
        stop("FAILREG_NODE is as 1/3: a number, and how many nodes there are, 32 at most");
    must(failreg_open(&program.node, (uint8_t)number, (uint8_t)nodes, FAILREG_NO_CAP, seed));
    if (pthread_create(&carrier, NULL, carry, NULL) != 0)
        stop("no thread can be started");
    while (getline(&line, &room, stdin) > 0)
        obey(line);
    is_over = true;
    pthread_join(carrier, NULL);
    if (redis != NULL)
        redisFree(redis);
    failreg_close(&program.node);
    free(line);
    return 0;
}
