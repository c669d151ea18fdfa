/* A server that saves orders on a disk that fails: the point `disk`. It is a node of one cluster
 * with the processes of server.rs, and works like them, in one thread: so an action `pause` would
 * wait forever.
 *
 *     cc -pthread -I embedding examples/three_servers/server.c embedding/lib/libfailreg.a -o server
 *     FAILREG_NODE=2/4 FAILREG_LISTEN=127.0.0.1:7072 FAILREG_PEERS=0:7070,1:7071 ./server 8072
 *
 * `POST /orders` at port 8072 saves an order: 200 and `saved`, or 503 and `lost: disk full`.
 * failreg_answer_at handles requests at FAILREG_LISTEN, and peers are sent what they lack. The server
 * ends when its standard input does. A client has two seconds, and everybody else waits meanwhile;
 * browser pages aren't kept out. If that matters, put these lines behind a server of yours. */
#include "failreg_point.h"

#include <arpa/inet.h>
#include <poll.h>
#include <signal.h>
#include <stdio.h>
#include <stdlib.h>
#include <string.h>
#include <sys/socket.h>
#include <sys/time.h>
#include <time.h>
#include <unistd.h>

enum { MOST_NODES = 32, MOST_BYTES = 1 << 20, TICK = 50 };

static failreg_program program = FAILREG_PROGRAM;
/* The port of each peer, 0 if it has none. */
static uint16_t peers[MOST_NODES];
static unsigned number, nodes;

static void stop(const char *why)
{
    fprintf(stderr, "server: %s\n", why);
    exit(1);
}

static void must(uint32_t status)
{
    if (status != FAILREG_OK)
        stop(failreg_strerror(status));
}

static int socket_at(unsigned port, struct sockaddr_in *at)
{
    const struct timeval two_seconds = { .tv_sec = 2 };
    int s = socket(AF_INET, SOCK_STREAM, 0);
    if (s < 0)
        return -1;
    setsockopt(s, SOL_SOCKET, SO_RCVTIMEO, &two_seconds, sizeof two_seconds);
    setsockopt(s, SOL_SOCKET, SO_SNDTIMEO, &two_seconds, sizeof two_seconds);
    *at = (struct sockaddr_in){ .sin_family = AF_INET, .sin_port = htons((uint16_t)port) };
    at->sin_addr.s_addr = htonl(INADDR_LOOPBACK);
    return s;
}

static int listening(unsigned port)
{
    struct sockaddr_in at;
    int s = socket_at(port, &at), one = 1;
    if (s < 0 || setsockopt(s, SOL_SOCKET, SO_REUSEADDR, &one, sizeof one) != 0
        || bind(s, (struct sockaddr *)&at, sizeof at) != 0 || listen(s, 64) != 0) {
        fprintf(stderr, "server: cannot listen on 127.0.0.1:%u: choose another port\n", port);
        exit(1);
    }
    return s;
}

static bool sent(int s, const void *bytes, size_t length)
{
    const char *rest = bytes;
    while (length > 0) {
        ssize_t count = send(s, rest, length, MSG_NOSIGNAL);
        if (count <= 0)
            return false;
        rest += count;
        length -= (size_t)count;
    }
    return true;
}

/* Returns the body's length from a head, 0 if it has none. */
static size_t body_length(const char *head)
{
    const char *field = strstr(head, "\r\nContent-Length:");
    if (!field)
        field = strstr(head, "\r\ncontent-length:");
    return field ? (size_t)strtoul(field + sizeof "\r\nContent-Length:" - 1, NULL, 10) : 0;
}

/* Reads a head and its body, and returns the start and the length of the body. NULL if they don't
 * arrive. */
static char *read_message(int s, size_t *begin, size_t *length)
{
    char *bytes = malloc(MOST_BYTES + 1), *end = NULL;
    size_t have = 0;
    while (bytes && have < MOST_BYTES) {
        ssize_t count = recv(s, bytes + have, MOST_BYTES - have, 0);
        if (count <= 0)
            break;
        have += (size_t)count;
        bytes[have] = 0;
        if (!end && !(end = strstr(bytes, "\r\n\r\n")))
            continue;
        *begin = (size_t)(end - bytes) + 4;
        *length = body_length(bytes);
        if (*length <= MOST_BYTES && have - *begin >= *length)
            return bytes;
    }
    free(bytes);
    return NULL;
}

static void reply(int s, unsigned status, const char *body, size_t length)
{
    char head[128];
    int count = snprintf(head, sizeof head,
                         "HTTP/1.1 %u \r\nContent-Length: %zu\r\nConnection: close\r\n\r\n", status,
                         length);
    (void)(sent(s, head, (size_t)count) && sent(s, body, length));
}

/* Returns the bytes of failreg_fetch. */
static char *fetched(size_t *length)
{
    *length = failreg_fetch(&program.node, "", 0);
    char *bytes = malloc(*length + 1);
    if (!bytes)
        stop("out of memory");
    failreg_fetch(&program.node, bytes, *length);
    bytes[*length] = 0;
    return bytes;
}

/* Returns the milliseconds since 1970. */
static uint64_t now_ms(void)
{
    struct timespec now;
    timespec_get(&now, TIME_UTC);
    return (uint64_t)now.tv_sec * 1000 + (uint64_t)now.tv_nsec / 1000000;
}

/* Handles a request at the node. */
static void answer(int s, const char *method, const char *path, const char *body, size_t length)
{
    failreg_answered answered;
    if (failreg_answer_at(&program.node, method, strlen(method), path, strlen(path),
                          (const uint8_t *)body, length, now_ms(), &answered) != FAILREG_OK) {
        reply(s, 400, "", 0);
        return;
    }
    size_t told_length;
    char *told = fetched(&told_length);
    reply(s, answered.status, told, told_length);
    free(told);
}

/* Saves an order, unless the disk fails. */
static void save(int s)
{
    char reason[201], lost[256];
    if (!failreg_eval(&program, "disk", reason, sizeof reason)) {
        reply(s, 200, "saved", 5);
        return;
    }
    printf("injected %s\n", reason);
    int count = snprintf(lost, sizeof lost, "lost: %s", reason);
    reply(s, 503, lost, (size_t)count);
}

/* Accepts a client, and handles its request. */
static void serve(int listener, bool is_node)
{
    const struct timeval two_seconds = { .tv_sec = 2 };
    char method[16], path[512], *bytes;
    size_t begin, length;
    int s = accept(listener, NULL, NULL);
    if (s < 0)
        return;
    setsockopt(s, SOL_SOCKET, SO_RCVTIMEO, &two_seconds, sizeof two_seconds);
    setsockopt(s, SOL_SOCKET, SO_SNDTIMEO, &two_seconds, sizeof two_seconds);
    if ((bytes = read_message(s, &begin, &length)) != NULL) {
        if (sscanf(bytes, "%15s %511s", method, path) != 2)
            reply(s, 400, "", 0);
        else if (is_node)
            answer(s, method, path, bytes + begin, length);
        else if (strcmp(method, "POST") == 0 && strcmp(path, "/orders") == 0)
            save(s);
        else
            reply(s, 404, "post to /orders", 15);
        free(bytes);
    }
    close(s);
}

/* Makes a message to a peer, once it is connected, and returns whether the peer accepted it. */
static bool post(uint8_t to)
{
    struct sockaddr_in at;
    char head[128], *message, *reply;
    size_t length, begin;
    int s = socket_at(peers[to], &at);
    bool is_taken = false;
    if (s < 0 || connect(s, (struct sockaddr *)&at, sizeof at) != 0
        || failreg_emit(&program.node, to) != FAILREG_OK) {
        if (s >= 0)
            close(s);
        return false;
    }
    message = fetched(&length);
    int count = snprintf(head, sizeof head,
                         "POST /gossip HTTP/1.1\r\nHost: 127.0.0.1\r\nContent-Length: %zu\r\n"
                         "Connection: close\r\n\r\n",
                         length);
    if (sent(s, head, (size_t)count) && sent(s, message, length)
        && (reply = read_message(s, &begin, &length)) != NULL) {
        is_taken = strncmp(reply, "HTTP/1.1 200", 12) == 0;
        free(reply);
    }
    free(message);
    close(s);
    return is_taken;
}

/* Sends a peer what it lacks, if that is due. */
static void tell(uint8_t to)
{
    uint8_t due;
    must(failreg_due(&program.node, to, &due));
    if (due == FAILREG_DUE_TELL)
        must(post(to) ? failreg_told(&program.node, to) : failreg_missed(&program.node, to));
}

static const char *from_environment(const char *name)
{
    const char *value = getenv(name);
    if (!value)
        stop("set FAILREG_NODE and FAILREG_LISTEN");
    return value;
}

/* The node's number, its address and its peers. */
static unsigned open_node(void)
{
    const uint8_t seed[32] = { 1 };
    unsigned port, to, at;
    if (sscanf(from_environment("FAILREG_NODE"), "%u/%u", &number, &nodes) != 2
        || nodes > MOST_NODES || sscanf(from_environment("FAILREG_LISTEN"), "127.0.0.1:%u", &port) != 1)
        stop("expected FAILREG_NODE such as 1/3, and FAILREG_LISTEN such as 127.0.0.1:7071");
    for (const char *rest = getenv("FAILREG_PEERS"); rest; rest = strchr(rest, ',')) {
        rest += *rest == ',';
        if (sscanf(rest, "%u:%u", &to, &at) != 2 || to >= nodes)
            stop("expected FAILREG_PEERS such as 0:7070,1:7071");
        if (to != number)
            peers[to] = (uint16_t)at;
    }
    must(failreg_open(&program.node, (uint8_t)number, (uint8_t)nodes, FAILREG_NO_CAP, seed));
    return port;
}

int main(int count, char **words)
{
    if (count != 2)
        stop("usage: server PORT");
    signal(SIGPIPE, SIG_IGN);
    setvbuf(stdout, NULL, _IOLBF, 0);
    unsigned port = open_node();
    struct pollfd looked[3] = {
        { .fd = STDIN_FILENO, .events = POLLIN },
        { .fd = listening(port), .events = POLLIN },
        { .fd = listening((unsigned)atoi(words[1])), .events = POLLIN },
    };
    printf("served at 127.0.0.1:%u\n", port);
    for (char byte;;) {
        poll(looked, 3, TICK);
        if (looked[0].revents && read(STDIN_FILENO, &byte, 1) <= 0)
            break;
        for (int i = 1; i < 3; i++)
            if (looked[i].revents)
                serve(looked[i].fd, i == 1);
        for (unsigned to = 0; to < nodes; to++)
            if (peers[to])
                tell((uint8_t)to);
    }
    failreg_close(&program.node);
    return 0;
}
