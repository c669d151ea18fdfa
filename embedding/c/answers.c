/* Sends a node HTTP requests, and lets each of their allocations fail in turn. After a failure the
 * response is 503 and nothing has changed, or the request was carried out with its normal response;
 * a repeated request works as if nothing had failed. Requests that need no memory allocate none.
 * Link with --wrap=malloc,--wrap=realloc. */
#include "failreg.h"

#include <stdio.h>
#include <stdlib.h>
#include <string.h>

static const char *tried = "the start";

/* How many allocations succeed until one fails; none fails if negative. */
static struct {
    long left;
    bool met;
} refused = { .left = -1 };

#define CHECK(holds)                                                                             \
    do {                                                                                         \
        if (!(holds)) {                                                                          \
            fprintf(stderr, "%s:%d: not so at %s: %s\n", __FILE__, __LINE__, tried, #holds);     \
            exit(1);                                                                             \
        }                                                                                        \
    } while (0)

void *__real_malloc(size_t size);
void *__real_realloc(void *old, size_t size);

static bool refuses(void)
{
    if (refused.left < 0 || refused.left-- > 0)
        return false;
    return refused.met = true;
}

void *__wrap_malloc(size_t size)
{
    return refuses() ? NULL : __real_malloc(size);
}

void *__wrap_realloc(void *old, size_t size)
{
    return refuses() ? NULL : __real_realloc(old, size);
}

typedef struct request {
    const char *method, *path, *body;
    uint16_t status;
    const char *told; /* the body of the reply, unless it is NULL */
    bool is_entry;
    bool needs_memory;
} request;

static const request REQUESTS[] = {
    { "PUT", "/fail/a", "3*return(x)->off", 200, "1.0", true, true },
    { "GET", "/fail", "", 200, "a=3*return(x)->off", false, true },
    { "POST", "/grant/a/0/2", "", 200, "2", true, true },
    { "POST", "/shift/a/0/1/04", "", 200, "4", true, true },
    { "POST", "/shift/a/0/1/4", "", 409, "N11 TooFewRights have=1", false, true },
    { "POST", "/shift/a/0/1/x", "", 400, "bad number", false, false },
    { "POST", "/load", "b=off;c=print", 200, "2", true, true },
    { "POST", "/load", "\xff", 400, "bad text", false, false },
    { "PUT", "/fail/a", "fly", 400, "N3 BadActions A7 UnknownTask term=0", false, true },
    { "DELETE", "/fail/b", "", 200, "4.0", true, true },
    { "POST", "/gossip", "none", 400, "N16 BadMessage W1 Magic offset=0", false, true },
    { "GET", "/nope", "", 404, "not found", false, false },
    { "PUT", "/report", "", 405, "bad method", false, false },
    { "GET", "/report", "", 200, NULL, false, true },
    { "POST", "/status", "", 405, "bad method", false, false },
    { "GET", "/status", "", 200, NULL, false, true },
    { "DELETE", "/fail/a!", "", 400, "N2 BadName", false, false },
    { "GET", "/spread/a", "", 405, "bad method", false, true },
    { "PUT", "/spread/a", "\xff", 400, "bad text", false, true },
    { "PUT", "/spread/a", "fly", 400, "N3 BadActions A7 UnknownTask term=0", false, true },
    { "POST", "/spread/none", "", 409, "N6 NotSet", false, true },
    { "POST", "/spread/a!", "", 400, "N2 BadName", false, true },
    { "POST", "/spread/", "", 404, "not found", false, false },
    { "POST", "/spread/a/0", "", 404, "not found", false, false },
    { "POST", "/spread", "", 404, "not found", false, false },
};

typedef struct reply {
    uint16_t status;
    char told[4096];
} reply;

static reply asked(failreg *node, const request *it)
{
    reply got = { .status = 7 };
    CHECK(failreg_answer(node, it->method, strlen(it->method), it->path, strlen(it->path),
                         (const uint8_t *)it->body, strlen(it->body), &got.status) == FAILREG_OK);
    size_t length = failreg_fetch(node, got.told, sizeof got.told - 1);
    CHECK(length < sizeof got.told);
    got.told[length] = 0;
    return got;
}

static bool is_as_wanted(const request *it, const reply *got)
{
    return got->status == it->status && (!it->told || strcmp(got->told, it->told) == 0);
}

static uint64_t calls_of(failreg *node)
{
    uint64_t calls = 0;
    CHECK(failreg_calls(node, &calls) == FAILREG_OK);
    return calls;
}

/* Sends a request until none of its allocations fails: 503 changes nothing. Returns how often. */
static long try_each_growth(failreg *node, const request *it)
{
    for (long growths = 0;; growths++) {
        uint64_t before = calls_of(node);
        refused.left = growths;
        refused.met = false;
        reply got = asked(node, it);
        bool met = refused.met;
        refused.left = -1;
        if (met && got.status == 503) {
            CHECK(calls_of(node) == before);
            CHECK(!*got.told || strcmp(got.told, "N22 OutOfMemory") == 0);
            continue;
        }
        CHECK(is_as_wanted(it, &got));
        CHECK(calls_of(node) == before + it->is_entry);
        CHECK(it->needs_memory || growths == 0);
        return growths;
    }
}

/* A message of node 1 is accepted by a request once, and changes nothing the second time. */
static void take_a_message(failreg *node)
{
    static const uint8_t seed[32] = { 1 };
    failreg other = FAILREG_CLOSED_NODE;
    failreg_stamp stamp;
    uint16_t status;
    char message[4096], told[16] = "";
    tried = "a message";
    CHECK(failreg_open(&other, 1, 2, 100, seed) == FAILREG_OK);
    CHECK(failreg_set(&other, "m", 1, "off", 3, &stamp) == FAILREG_OK);
    CHECK(failreg_emit(&other, 0) == FAILREG_OK);
    size_t length = failreg_fetch(&other, message, sizeof message);
    CHECK(length <= sizeof message);
    for (int time = 0; time < 2; time++) {
        CHECK(failreg_answer(node, "POST", 4, "/gossip", 7, (const uint8_t *)message, length,
                             &status) == FAILREG_OK);
        size_t known = failreg_fetch(node, told, sizeof told - 1);
        told[known] = 0;
        CHECK(status == 200 && strcmp(told, time ? "same" : "changed") == 0);
    }
    failreg_close(&other);
}

/* Input that is no request has no response, and changes nothing. */
static void refuse_what_is_none(failreg *node)
{
    failreg closed = FAILREG_CLOSED_NODE;
    const uint8_t *body = (const uint8_t *)"";
    uint16_t status = 7;
    tried = "what is no request";
    uint64_t before = calls_of(node);
    CHECK(failreg_answer(&closed, "GET", 3, "/fail", 5, body, 0, &status) == FAILREG_E_CLOSED);
    CHECK(status == 0);
    status = 7;
    CHECK(failreg_answer(node, "G\xff", 2, "/fail", 5, body, 0, &status) == FAILREG_E_NOT_UTF8);
    CHECK(status == 0);
    status = 7;
    CHECK(failreg_answer(node, "GET", 3, "/\xff", 2, body, 0, &status) == FAILREG_E_NOT_UTF8);
    CHECK(status == 0 && calls_of(node) == before);
}

/* A point that is set and spread, whichever allocation fails: repeated, it is set and spread. */
static void spread_a_point(failreg *node)
{
    static const request SET = { "PUT", "/spread/s", "5*return", 200, NULL, true, true };
    static const request KEPT = { "POST", "/spread/s", "", 200, "2", true, true };
    int64_t rights;
    tried = "a spread";
    for (long growths = 0; growths >= 0; growths = refused.met ? growths + 1 : -1) {
        refused.left = growths;
        refused.met = false;
        reply got = asked(node, &SET);
        refused.left = -1;
        CHECK(got.status == (refused.met ? got.status : 200));
        CHECK(got.status == 200 || got.status == 503);
        reply again = asked(node, &SET);
        CHECK(again.status == 200);
        CHECK(failreg_rights(node, "s", 1, 0, 0, &rights) == FAILREG_OK && rights == 3);
        CHECK(failreg_rights(node, "s", 1, 0, 1, &rights) == FAILREG_OK && rights == 2);
    }
    uint64_t before = calls_of(node);
    reply kept = asked(node, &KEPT);
    CHECK(is_as_wanted(&KEPT, &kept) && calls_of(node) == before + 1);
}

/* A node at its call limit says so, whether there is memory or not. */
static void refuse_at_a_full_node(void)
{
    static const uint8_t seed[32] = { 1 };
    static const request FULL = { "PUT", "/fail/b", "off", 503, "N1 TraceFull", false, false };
    failreg node = FAILREG_CLOSED_NODE;
    failreg_stamp stamp;
    tried = "a full node";
    CHECK(failreg_open(&node, 0, 2, 1, seed) == FAILREG_OK);
    CHECK(failreg_set(&node, "a", 1, "off", 3, &stamp) == FAILREG_OK);
    refused.left = 0;
    refused.met = false;
    reply got = asked(&node, &FULL);
    refused.left = -1;
    CHECK(!refused.met && is_as_wanted(&FULL, &got));
    failreg_close(&node);
}

int main(void)
{
    static const uint8_t seed[32] = { 1 };
    failreg node = FAILREG_CLOSED_NODE;
    long growths = 0;
    CHECK(failreg_open(&node, 0, 2, 1000, seed) == FAILREG_OK);
    refuse_what_is_none(&node);
    for (size_t i = 0; i < sizeof REQUESTS / sizeof REQUESTS[0]; i++) {
        tried = REQUESTS[i].path;
        growths += try_each_growth(&node, &REQUESTS[i]);
    }
    CHECK(growths > 0);
    spread_a_point(&node);
    take_a_message(&node);
    failreg_close(&node);
    refuse_at_a_full_node();
    printf("%ld growths of requests refused\n", growths);
    return 0;
}
