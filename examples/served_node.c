/* A node that is served over HTTP by a C program, as `failreg serve` serves one: each client in a
 * thread of its own, with 2 seconds for the head of its request and 10 in total, and 4 bodies over
 * 64 KiB at once.
 *
 *     cc -pthread -I embedding examples/served_node.c embedding/lib/libfailreg.a -o served_node
 *     ./served_node --node 0 --nodes 2 --listen 127.0.0.1:7070 --key-file key --cap 1000000
 *
 * It prints `listening 7070`. Put what a thread does here behind your own event loop if you have
 * one: the connection needs no thread. */
#define _POSIX_C_SOURCE 200809L

#include "failreg.h"

#include <netdb.h>
#include <netinet/in.h>
#include <poll.h>
#include <pthread.h>
#include <semaphore.h>
#include <signal.h>
#include <stdio.h>
#include <stdlib.h>
#include <string.h>
#include <sys/random.h>
#include <sys/socket.h>
#include <time.h>
#include <unistd.h>

enum { PIECE = 65536, HEAD_MS = 2000, WHOLE_MS = 10000, LINGER_MS = 1000, LONG_BODIES = 4 };

static failreg node;
static failreg_service service;
/* Guards the node and the service. */
static pthread_mutex_t lock = PTHREAD_MUTEX_INITIALIZER;
static sem_t long_bodies;

static void stop(const char *why)
{
    fprintf(stderr, "served_node: %s\n", why);
    exit(1);
}

static void must(uint32_t status)
{
    if (status != FAILREG_OK)
        stop(failreg_strerror(status));
}

/* Returns the milliseconds since 1970, or of a clock that nobody sets. */
static uint64_t clock_ms(clockid_t clock)
{
    struct timespec now;
    clock_gettime(clock, &now);
    return (uint64_t)now.tv_sec * 1000 + (uint64_t)now.tv_nsec / 1000000;
}

static uint64_t now_s(void)
{
    return clock_ms(CLOCK_REALTIME) / 1000;
}

/* Waits until a socket is ready. Returns false if it isn't before the end. */
static bool is_ready(int s, short events, uint64_t end)
{
    struct pollfd looked = { .fd = s, .events = events };
    uint64_t now = clock_ms(CLOCK_MONOTONIC);
    return now < end && poll(&looked, 1, (int)(end - now)) > 0;
}

/* Receives what a connection waits for, or tells it that no more comes. */
static void feed(int s, failreg_http *http, uint8_t *bytes, uint64_t end)
{
    ssize_t count = is_ready(s, POLLIN, end) ? recv(s, bytes, PIECE, 0) : 0;
    if (count <= 0) {
        must(failreg_http_end(http));
        return;
    }
    pthread_mutex_lock(&lock);
    must(failreg_http_feed(http, &service, bytes, (size_t)count, now_s()));
    pthread_mutex_unlock(&lock);
}

/* Sends the next bytes of a connection. Returns false if they can't be sent. */
static bool send_some(int s, failreg_http *http, uint8_t *bytes, uint64_t end)
{
    size_t size = failreg_http_output(http, bytes, PIECE);
    ssize_t count = is_ready(s, POLLOUT, end) ? send(s, bytes, size, MSG_NOSIGNAL) : 0;
    if (count <= 0)
        return false;
    must(failreg_http_sent(http, (size_t)count));
    return true;
}

static void answer(failreg_http *http)
{
    failreg_answered answered;
    pthread_mutex_lock(&lock);
    must(failreg_http_answer(&node, http, clock_ms(CLOCK_REALTIME), &answered));
    pthread_mutex_unlock(&lock);
    /* A node with a journal writes the call's line here. */
}

/* Gives the client time to read its response before the connection ends. */
static void linger(int s, uint8_t *bytes)
{
    uint64_t end = clock_ms(CLOCK_MONOTONIC) + LINGER_MS;
    shutdown(s, SHUT_WR);
    while (is_ready(s, POLLIN, end) && recv(s, bytes, PIECE, 0) > 0) {}
}

/* Serves a client until its connection is to be closed. */
static void serve(int s, failreg_http *http, uint8_t *bytes)
{
    const uint64_t begun = clock_ms(CLOCK_MONOTONIC);
    bool has_permit = false, is_on = true;
    while (is_on) {
        uint8_t wants = failreg_http_wants(http);
        switch (wants) {
        case FAILREG_HTTP_HEAD: feed(s, http, bytes, begun + HEAD_MS); break;
        case FAILREG_HTTP_BODY: feed(s, http, bytes, begun + WHOLE_MS); break;
        case FAILREG_HTTP_PERMIT:
            sem_wait(&long_bodies);
            has_permit = true;
            must(failreg_http_permit(http, now_s()));
            break;
        case FAILREG_HTTP_ANSWER: answer(http); break;
        case FAILREG_HTTP_TELL: must(failreg_http_tell(http, now_s())); break;
        case FAILREG_HTTP_WRITE: is_on = send_some(s, http, bytes, begun + WHOLE_MS); break;
        case FAILREG_HTTP_LINGER: linger(s, bytes); is_on = false; break;
        default: is_on = false;
        }
    }
    if (has_permit)
        sem_post(&long_bodies);
}

static void *run(void *client)
{
    int s = (int)(intptr_t)client;
    failreg_http http = FAILREG_CLOSED_HTTP;
    uint8_t *bytes = malloc(PIECE);
    if (bytes && failreg_http_open(&http) == FAILREG_OK)
        serve(s, &http, bytes);
    failreg_http_close(&http);
    free(bytes);
    close(s);
    return NULL;
}

/* Reads the key of a file: 0 bytes without one. */
static size_t read_key(const char *path, uint8_t *key, size_t room)
{
    FILE *file = path ? fopen(path, "rb") : NULL;
    if (!file && path)
        stop("the key file can't be opened");
    size_t length = file ? fread(key, 1, room, file) : 0;
    if (file)
        fclose(file);
    return length;
}

/* Listens at an address such as 127.0.0.1:7070 or [::1]:7070, and returns the port in `port`. */
static int listening(const char *address, unsigned *port)
{
    const struct addrinfo wanted = { .ai_flags = AI_NUMERICHOST, .ai_socktype = SOCK_STREAM };
    struct addrinfo *found;
    struct sockaddr_storage at;
    socklen_t size = sizeof at;
    char host[64], name[8];
    int one = 1;
    if (sscanf(address, address[0] == '[' ? "[%63[^]]]:%7s" : "%63[^:]:%7s", host, name) != 2
        || getaddrinfo(host, name, &wanted, &found) != 0)
        stop("expected --listen such as 127.0.0.1:7070");
    int s = socket(found->ai_family, SOCK_STREAM, 0);
    setsockopt(s, SOL_SOCKET, SO_REUSEADDR, &one, sizeof one);
    if (bind(s, found->ai_addr, found->ai_addrlen) != 0 || listen(s, 4096) != 0
        || getsockname(s, (struct sockaddr *)&at, &size) != 0)
        stop("can't listen there: choose another port");
    *port = ntohs(at.ss_family == AF_INET6 ? ((struct sockaddr_in6 *)&at)->sin6_port
                                           : ((struct sockaddr_in *)&at)->sin_port);
    freeaddrinfo(found);
    return s;
}

/* Opens the node and its service as the command line says, and returns the socket of clients. */
static int open_served(int count, char **words)
{
    const char *address = "127.0.0.1:0", *key_file = NULL;
    unsigned number = 0, nodes = 1, port;
    uint64_t cap = FAILREG_NO_CAP;
    uint8_t seed[32] = { 0 }, key[1025];
    uint64_t secret[2];
    for (int i = 1; i + 1 < count; i++) {
        if (strcmp(words[i], "--node") == 0)
            number = (unsigned)atoi(words[i + 1]);
        else if (strcmp(words[i], "--nodes") == 0)
            nodes = (unsigned)atoi(words[i + 1]);
        else if (strcmp(words[i], "--cap") == 0)
            cap = strtoull(words[i + 1], NULL, 10);
        else if (strcmp(words[i], "--listen") == 0)
            address = words[i + 1];
        else if (strcmp(words[i], "--key-file") == 0)
            key_file = words[i + 1];
    }
    if (getrandom(secret, sizeof secret, 0) != sizeof secret)
        stop("no random bytes");
    int s = listening(address, &port);
    must(failreg_open(&node, (uint8_t)number, (uint8_t)nodes, cap, seed));
    must(failreg_service_open(&service, (uint16_t)port, key, read_key(key_file, key, sizeof key),
                              secret[0], secret[1]));
    printf("listening %u\n", port);
    fflush(stdout);
    return s;
}

int main(int count, char **words)
{
    signal(SIGPIPE, SIG_IGN);
    sem_init(&long_bodies, 0, LONG_BODIES);
    int clients = open_served(count, words);
    for (;;) {
        pthread_t thread;
        int s = accept(clients, NULL, NULL);
        if (s < 0 || pthread_create(&thread, NULL, run, (void *)(intptr_t)s) != 0)
            close(s);
        else
            pthread_detach(thread);
    }
}
