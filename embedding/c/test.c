/* Nodes in a C program: a count that two nodes share over threads, actions, errors. */
#define _POSIX_C_SOURCE 200809L
#include "failreg.h"

#include <pthread.h>
#include <sched.h>
#include <stdio.h>
#include <stdlib.h>
#include <string.h>
#include <time.h>

#define TEXT(s) (s), sizeof(s) - 1
#define CHECK(holds)                                                       \
    do {                                                                   \
        if (!(holds)) {                                                    \
            fprintf(stderr, "%s:%d: not so: %s\n", __FILE__, __LINE__, #holds); \
            exit(1);                                                       \
        }                                                                  \
    } while (0)

enum { NODES = 2, THREADS = 4, PASSES = 2000 };

static const uint8_t SEED[32] = { 1, 2, 3 };

/* A node with its mutex. */
typedef struct shared {
    failreg node;
    pthread_mutex_t mutex;
} shared;

static failreg opened(uint8_t number)
{
    failreg node = FAILREG_CLOSED_NODE;
    CHECK(failreg_open(&node, number, NODES, 100000, SEED) == FAILREG_OK);
    return node;
}

static void set(failreg *node, const char *actions)
{
    failreg_stamp stamp;
    CHECK(failreg_set(node, TEXT("p"), actions, strlen(actions), &stamp) == FAILREG_OK);
}

static failreg_act pass(failreg *node)
{
    failreg_act act;
    CHECK(failreg_pass(node, TEXT("p"), &act) == FAILREG_OK);
    return act;
}

/* Returns the bytes of failreg_fetch, with a zero after them. The caller frees it. */
static char *fetched(const failreg *node, size_t *length)
{
    *length = failreg_fetch(node, "", 0);
    char *bytes = malloc(*length + 1);
    CHECK(bytes != NULL && failreg_fetch(node, bytes, *length) == *length);
    bytes[*length] = 0;
    return bytes;
}

static bool said(const failreg *node, const char *wanted)
{
    size_t length;
    char *bytes = fetched(node, &length);
    bool is_same = strcmp(bytes, wanted) == 0;
    free(bytes);
    return is_same;
}

/* Returns whether the last rejected call has this text. */
static bool faulted(const failreg *node, const char *wanted)
{
    char text[256];
    size_t length, wanted_length = strlen(wanted);
    CHECK(failreg_fault(node, text, sizeof text, &length) == FAILREG_OK);
    CHECK(length <= sizeof text);
    return length == wanted_length && memcmp(text, wanted, length) == 0;
}

static bool tell(failreg *from, uint8_t number, failreg *to)
{
    size_t length;
    bool changed;
    CHECK(failreg_emit(from, number) == FAILREG_OK);
    char *bytes = fetched(from, &length);
    CHECK(failreg_deliver(to, (const uint8_t *)bytes, length, &changed) == FAILREG_OK);
    free(bytes);
    return changed;
}

static void take(pthread_mutex_t *mutex)
{
    unsigned looks = 0;
    while (pthread_mutex_trylock(mutex) != 0)
        if (!failreg_look_again(&looks)) {
            CHECK(looks == 9 && pthread_mutex_lock(mutex) == 0);
            break;
        }
}

static void *pass_often(void *given)
{
    shared *at = given;
    size_t ran = 0;
    for (int i = 0; i < PASSES; i++) {
        take(&at->mutex);
        failreg_act act = pass(&at->node);
        pthread_mutex_unlock(&at->mutex);
        ran += act.outcome == FAILREG_OUTCOME_ACT && act.task == FAILREG_TASK_RETURN;
    }
    return (void *)ran;
}

/* Sharing moves rights to the node that evaluates, which keeps one; spreading divides them. */
static void rights_follow_passes(void)
{
    failreg first = opened(0), second = opened(1);
    uint64_t shifts, kept, calls, later;
    failreg_stamp stamp;
    int64_t left;
    set(&first, "5*return->off");
    CHECK(failreg_share(&first, &shifts) == FAILREG_OK && shifts == 0);
    CHECK(tell(&first, 1, &second));
    CHECK(pass(&second).term == 1 && tell(&second, 0, &first));
    CHECK(failreg_share(&first, &shifts) == FAILREG_OK && shifts == 1);
    CHECK(failreg_rights(&first, TEXT("p"), 0, 0, &left) == FAILREG_OK && left == 3);
    CHECK(failreg_share(&first, &shifts) == FAILREG_OK && shifts == 0);
    CHECK(tell(&first, 1, &second) && pass(&second).term == 0);
    /* One of three is transferred: the larger share stays. */
    CHECK(failreg_spread(&first, TEXT("p"), &kept) == FAILREG_OK && kept == 2);
    CHECK(failreg_set_spread(&first, TEXT("p"), TEXT("5*return->2*panic"), &stamp) == FAILREG_OK);
    CHECK(stamp.clock == 2 && stamp.node == 0);
    CHECK(failreg_rights(&first, TEXT("p"), 0, 0, &left) == FAILREG_OK && left == 3);
    CHECK(failreg_rights(&first, TEXT("p"), 1, 1, &left) == FAILREG_OK && left == 1);
    CHECK(failreg_calls(&first, &calls) == FAILREG_OK);
    CHECK(failreg_spread(&first, TEXT("q"), &kept) == FAILREG_E_NOT_SET && kept == 0);
    CHECK(failreg_spread(&first, TEXT(""), &kept) == FAILREG_E_BAD_NAME);
    CHECK(failreg_spread(&first, TEXT("\xff"), &kept) == FAILREG_E_NOT_UTF8);
    CHECK(failreg_set_spread(&first, TEXT("p"), TEXT("no"), &stamp) == FAILREG_E_BAD_ACTIONS);
    CHECK(stamp.clock == 0 && failreg_calls(&first, &later) == FAILREG_OK && later == calls);
    failreg_close(&first);
    failreg_close(&second);
    CHECK(failreg_share(&first, &shifts) == FAILREG_E_CLOSED && shifts == 0);
    CHECK(failreg_spread(&first, TEXT("p"), &kept) == FAILREG_E_CLOSED);
    CHECK(failreg_set_spread(&first, TEXT("p"), TEXT("off"), &stamp) == FAILREG_E_CLOSED);
}

/* Nothing is half done if the call limit leaves no room for it. */
static void a_spread_has_room(void)
{
    failreg node = FAILREG_CLOSED_NODE;
    failreg_stamp stamp;
    uint64_t kept, calls;
    CHECK(failreg_open(&node, 1, 3, 34, SEED) == FAILREG_OK);
    set(&node, "7*return->off");
    CHECK(failreg_set_spread(&node, TEXT("p"), TEXT("7*return"), &stamp) == FAILREG_OK);
    CHECK(failreg_calls(&node, &calls) == FAILREG_OK && calls == 4);
    CHECK(failreg_set_spread(&node, TEXT("p"), TEXT("7*return"), &stamp) == FAILREG_E_TRACE_FULL);
    for (; calls < 33; calls++)
        pass(&node);
    set(&node, "7*return->off");
    CHECK(failreg_spread(&node, TEXT("p"), &kept) == FAILREG_E_TRACE_FULL && kept == 0);
    CHECK(failreg_calls(&node, &calls) == FAILREG_OK && calls == 34);
    failreg_close(&node);
}

/* Two nodes share a count of 1000, and four threads at each use up exactly these. */
static void a_count_is_shared_over_threads(void)
{
    shared nodes[NODES];
    pthread_t threads[NODES][THREADS];
    uint64_t total;
    size_t ran[NODES] = { 0, 0 };
    for (uint8_t n = 0; n < NODES; n++) {
        nodes[n].node = opened(n);
        CHECK(pthread_mutex_init(&nodes[n].mutex, NULL) == 0);
    }
    failreg *first = &nodes[0].node, *second = &nodes[1].node;
    set(first, "1000*return->off");
    CHECK(failreg_shift(first, TEXT("p"), 0, 1, 300, &total) == FAILREG_OK && total == 300);
    CHECK(tell(first, 1, second) && !tell(first, 1, second));
    for (int n = 0; n < NODES; n++)
        for (int t = 0; t < THREADS; t++)
            CHECK(pthread_create(&threads[n][t], NULL, pass_often, &nodes[n]) == 0);
    for (int n = 0; n < NODES; n++)
        for (int t = 0; t < THREADS; t++) {
            void *each;
            CHECK(pthread_join(threads[n][t], &each) == 0);
            ran[n] += (size_t)each;
        }
    CHECK(ran[0] == 700 && ran[1] == 300);
    failreg_wide spent, hits;
    int64_t left;
    CHECK(tell(second, 0, first));
    CHECK(failreg_spent(first, TEXT("p"), 0, &spent) == FAILREG_OK);
    CHECK(spent.low == 1000 && spent.high == 0);
    CHECK(failreg_hits(first, TEXT("p"), &hits) == FAILREG_OK);
    CHECK(hits.low == NODES * THREADS * PASSES && hits.high == 0);
    CHECK(failreg_grant(first, TEXT("p"), 0, 5, &total) == FAILREG_OK && total == 5);
    CHECK(failreg_rights(first, TEXT("p"), 0, 0, &left) == FAILREG_OK && left == 5);
    CHECK(failreg_rights(first, TEXT("p"), 0, 1, &left) == FAILREG_OK && left == 0);
    for (int n = 0; n < NODES; n++) {
        failreg_close(&nodes[n].node);
        pthread_mutex_destroy(&nodes[n].mutex);
    }
}

/* A lock that stays taken is tried a few times, and then slept for. */
static void looks_end(void)
{
    unsigned looks = 0;
    for (unsigned i = 1; i <= 9; i++)
        CHECK(failreg_look_again(&looks) && looks == i);
    CHECK(!failreg_look_again(&looks) && looks == 9);
}

static double seconds(void)
{
    struct timespec now;
    clock_gettime(CLOCK_MONOTONIC, &now);
    return (double)now.tv_sec + (double)now.tv_nsec / 1e9;
}

/* Carries out an action, as a program does. Returns whether it is `return`. */
static bool carry_out(failreg *node, failreg_act act)
{
    struct timespec time = { (time_t)(act.millis / 1000), (long)(act.millis % 1000) * 1000000 };
    double end = seconds() + (double)act.millis / 1000;
    bool is_over = true;
    failreg_stamp stamp = { act.clock, act.node };
    switch (act.task) {
    case FAILREG_TASK_RETURN:
        return true;
    case FAILREG_TASK_SLEEP:
        nanosleep(&time, NULL);
        break;
    case FAILREG_TASK_DELAY:
        while (seconds() < end)
            ;
        break;
    case FAILREG_TASK_YIELD:
        sched_yield();
        break;
    case FAILREG_TASK_PAUSE:
        CHECK(failreg_pause_over(node, TEXT("p"), &stamp, &is_over) == FAILREG_OK && !is_over);
        set(node, "off");
        CHECK(failreg_pause_over(node, TEXT("p"), &stamp, &is_over) == FAILREG_OK && is_over);
        break;
    }
    return false;
}

/* Each action, its text and its time. */
static void tasks_are_told_and_carried_out(void)
{
    static const struct {
        const char *actions;
        uint8_t task;
        uint64_t millis;
        const char *text; /* NULL: none is given */
    } rows[] = {
        { "off", FAILREG_TASK_OFF, 0, NULL },
        { "return", FAILREG_TASK_RETURN, 0, NULL },
        { "return()", FAILREG_TASK_RETURN, 0, "" },
        { "return(no luck)", FAILREG_TASK_RETURN, 0, "no luck" },
        { "sleep(20)", FAILREG_TASK_SLEEP, 20, NULL },
        { "panic(boom)", FAILREG_TASK_PANIC, 0, "boom" },
        { "print(\xc3\xa9)", FAILREG_TASK_PRINT, 0, "\xc3\xa9" },
        { "pause", FAILREG_TASK_PAUSE, 0, NULL },
        { "yield", FAILREG_TASK_YIELD, 0, NULL },
        { "delay(20)", FAILREG_TASK_DELAY, 20, NULL },
    };
    failreg node = opened(0);
    CHECK(pass(&node).outcome == FAILREG_OUTCOME_UNSET);
    for (size_t i = 0; i < sizeof rows / sizeof rows[0]; i++) {
        set(&node, rows[i].actions);
        failreg_act act = pass(&node);
        const char *text = rows[i].text ? rows[i].text : "";
        CHECK(act.outcome == FAILREG_OUTCOME_ACT && act.term == 0 && act.task == rows[i].task);
        CHECK(act.millis == rows[i].millis && act.has_text == (rows[i].text != NULL));
        CHECK(act.text_len == strlen(text) && said(&node, text));
        double begun = seconds();
        CHECK(carry_out(&node, act) == (act.task == FAILREG_TASK_RETURN));
        CHECK(seconds() - begun >= (double)act.millis / 1000);
    }
    set(&node, "1*off");
    CHECK(pass(&node).outcome == FAILREG_OUTCOME_ACT && pass(&node).outcome == FAILREG_OUTCOME_NONE);
    failreg_close(&node);
}

/* Random draws: those of an evaluation have the same result when they are given, and no others are
 * drawn. */
static void words_are_drawn(void)
{
    failreg node = opened(0), other = opened(0);
    failreg_act act, again;
    uint32_t words[2] = { 0, 0 }, none = 0;
    set(&node, "50%return->50%print->off");
    set(&other, "50%return->50%print->off");
    for (int i = 0; i < 40; i++) {
        act = pass(&node);
        CHECK(failreg_words(&node, &none, 0) == 2 && failreg_words(&node, words, 2) == 2);
        CHECK(failreg_pass_with(&other, TEXT("p"), words, 2, &again) == FAILREG_OK);
        CHECK(again.term == act.term);
    }
    CHECK(failreg_pass_with(&other, TEXT("p"), words, 1, &again) == FAILREG_E_BAD_WORDS);
    CHECK(faulted(&other, "N14 BadWords need=2"));
    failreg_close(&node);
    failreg_close(&other);
}

/* Numbers of points: a name has one and keeps it. Evaluating by the number is evaluating the name;
 * its text can be fetched while the point gets another configuration. */
static void points_have_numbers(void)
{
    failreg node = opened(0), other = opened(0);
    failreg_act act, again;
    failreg_stamp stamp;
    uint64_t calls;
    uint32_t p = 9, q = 9, word, same;
    CHECK(failreg_point(&node, TEXT("p"), &p) == FAILREG_OK && p == 0);
    CHECK(failreg_pass_at(&node, p, &act) == FAILREG_OK && act.outcome == FAILREG_OUTCOME_UNSET);
    CHECK(failreg_point(&node, TEXT("q"), &q) == FAILREG_OK && q == 1);
    CHECK(failreg_point(&node, TEXT("p"), &p) == FAILREG_OK && p == 0);
    CHECK(failreg_point(&node, TEXT("a b"), &p) == FAILREG_E_BAD_NAME && p == 0);
    CHECK(failreg_point(&node, "\xff", 1, &p) == FAILREG_E_NOT_UTF8);
    CHECK(failreg_pass_at(&node, 2, &act) == FAILREG_E_NO_POINT && act.outcome == FAILREG_OUTCOME_UNSET);
    CHECK(failreg_pass_at(&node, UINT32_MAX, &act) == FAILREG_E_NO_POINT);
    CHECK(faulted(&node, ""));
    CHECK(failreg_calls(&node, &calls) == FAILREG_OK && calls == 1);
    pass(&other);
    for (int i = 0; i < 2; i++)
        set(i ? &other : &node, "50%3*print(one)->50%panic()->off");
    for (int i = 0; i < 40; i++) {
        again = pass(&other);
        CHECK(failreg_pass_at(&node, p, &act) == FAILREG_OK);
        CHECK(act.outcome == again.outcome && act.term == again.term && act.task == again.task);
        CHECK(act.clock == again.clock && act.node == again.node && act.has_text == again.has_text);
        CHECK(act.text_len == again.text_len && said(&node, act.term == 0 ? "one" : ""));
        CHECK(failreg_words(&node, &word, 1) == 2 && failreg_words(&other, &same, 1) == 2);
        CHECK(word == same);
    }
    set(&node, "print(first)");
    CHECK(failreg_pass_at(&node, p, &act) == FAILREG_OK && act.text_len == 5);
    set(&node, "print(second)");
    CHECK(said(&node, "first"));
    CHECK(failreg_remove(&node, TEXT("p"), &stamp) == FAILREG_OK && said(&node, "first"));
    CHECK(failreg_pass_at(&node, p, &act) == FAILREG_OK && act.outcome == FAILREG_OUTCOME_UNSET);
    CHECK(said(&node, ""));
    failreg_close(&node);
    failreg_close(&other);
    CHECK(failreg_point(&node, TEXT("p"), &p) == FAILREG_E_CLOSED && p == 0);
    CHECK(failreg_pass_at(&node, 0, &act) == FAILREG_E_CLOSED);
}

/* Reads of a point, its configurations, and the versions. Only accepted calls that change it count. */
static void readers_take_no_entry(void)
{
    failreg node = opened(0), other = opened(1);
    uint64_t calls, version, known, acked;
    uint16_t entries;
    bool is_set;
    failreg_stamp stamp;
    CHECK(failreg_load(&node, TEXT("p=off;q=2*panic->off"), &entries) == FAILREG_OK);
    CHECK(entries == 2);
    CHECK(failreg_is_set(&node, TEXT("p"), &is_set) == FAILREG_OK && is_set);
    CHECK(failreg_remove(&node, TEXT("p"), &stamp) == FAILREG_OK && stamp.clock == 3);
    CHECK(failreg_is_set(&node, TEXT("p"), &is_set) == FAILREG_OK && !is_set);
    CHECK(failreg_list(&node) == FAILREG_OK && said(&node, "q=2*panic->off"));
    CHECK(failreg_calls(&node, &calls) == FAILREG_OK && calls == 2);
    CHECK(failreg_state_version(&node, &version) == FAILREG_OK && version == 2);
    CHECK(tell(&node, 1, &other) && !tell(&other, 0, &node));
    CHECK(failreg_known(&other, 0, &known) == FAILREG_OK && known == version);
    CHECK(failreg_acked(&node, 1, &acked) == FAILREG_OK && acked == version);
    failreg_close(&node);
    failreg_close(&other);
}

static uint64_t kept(const failreg *node)
{
    uint64_t calls;
    CHECK(failreg_kept(node, &calls) == FAILREG_OK);
    return calls;
}

/* Returns whether two nodes would send node 1 the same message. */
static bool tell_the_same(failreg *node, failreg *other)
{
    size_t length, same;
    CHECK(failreg_emit(node, 1) == FAILREG_OK && failreg_emit(other, 1) == FAILREG_OK);
    char *message = fetched(node, &length), *again = fetched(other, &same);
    bool is = length == same && memcmp(message, again, length) == 0;
    free(message);
    free(again);
    return is;
}

/* A node that discards its call history, however often, works like one that keeps it. */
static void calls_are_forgotten(void)
{
    failreg node = opened(0), other = opened(0);
    uint64_t calls, same;
    uint32_t p;
    CHECK(failreg_point(&node, TEXT("p"), &p) == FAILREG_OK);
    set(&node, "50%3*print(one)->20%panic(two)->off");
    set(&other, "50%3*print(one)->20%panic(two)->off");
    for (int i = 0; i < 300; i++) {
        failreg_act act, again = pass(&other);
        CHECK(failreg_pass_at(&node, p, &act) == FAILREG_OK);
        CHECK(act.outcome == again.outcome && act.term == again.term && act.text_len == again.text_len);
        CHECK(said(&node, act.term == 0 ? "one" : act.term == 1 ? "two" : ""));
        if (i % 7 == 0) {
            CHECK(failreg_forget(&node) == FAILREG_OK && kept(&node) == 0 && said(&node, ""));
        }
        CHECK(kept(&node) == (uint64_t)(i % 7) && kept(&other) == (uint64_t)i + 2);
        CHECK(failreg_calls(&node, &calls) == FAILREG_OK && failreg_calls(&other, &same) == FAILREG_OK);
        CHECK(calls == same && calls == (uint64_t)i + 2);
    }
    CHECK(tell_the_same(&node, &other));
    CHECK(failreg_list(&node) == FAILREG_OK && failreg_forget(&node) == FAILREG_OK);
    CHECK(said(&node, "p=50%3*print(one)->20%panic(two)->off"));
    failreg_close(&node);
    failreg_close(&other);
    CHECK(failreg_forget(&node) == FAILREG_E_CLOSED);
    CHECK(failreg_kept(&node, &calls) == FAILREG_E_CLOSED && calls == 0);
}

/* A call limit holds for the whole life, even if the history is discarded. */
static void a_cap_is_of_a_life(void)
{
    failreg node = FAILREG_CLOSED_NODE;
    failreg_act act;
    CHECK(failreg_open(&node, 0, 1, 3, SEED) == FAILREG_OK);
    for (int i = 0; i < 3; i++) {
        pass(&node);
        CHECK(failreg_forget(&node) == FAILREG_OK);
    }
    CHECK(failreg_pass(&node, TEXT("p"), &act) == FAILREG_E_TRACE_FULL);
    failreg_close(&node);
}

/* Rejected calls leave the node unchanged, and say why. */
static void refusals_are_told(void)
{
    failreg node = FAILREG_CLOSED_NODE;
    failreg_stamp stamp = { 7, 7 };
    failreg_act act;
    uint64_t calls;
    bool is_set;
    CHECK(failreg_pass(&node, TEXT("p"), &act) == FAILREG_E_CLOSED);
    CHECK(failreg_fetch(&node, "", 0) == 0);
    CHECK(failreg_is_set(&node, TEXT("p"), &is_set) == FAILREG_E_CLOSED && !is_set);
    CHECK(failreg_open(&node, 2, NODES, 9, SEED) == FAILREG_E_BAD_CONFIG && !node.is_open);
    CHECK(failreg_open(&node, 0, NODES, FAILREG_NO_CAP + 1, SEED) == FAILREG_E_BAD_CONFIG);
    CHECK(failreg_open(&node, 0, NODES, 2, SEED) == FAILREG_OK);
    CHECK(failreg_open(&node, 0, NODES, 2, SEED) == FAILREG_E_ALREADY_OPEN);
    CHECK(failreg_set(&node, "\xff", 1, TEXT("off"), &stamp) == FAILREG_E_NOT_UTF8);
    CHECK(stamp.clock == 0 && faulted(&node, ""));
    CHECK(failreg_set(&node, TEXT("p"), "\xff", 1, &stamp) == FAILREG_E_NOT_UTF8);
    CHECK(failreg_set(&node, TEXT("a b"), TEXT("off"), &stamp) == FAILREG_E_BAD_NAME);
    CHECK(failreg_set(&node, TEXT("p"), TEXT("offf"), &stamp) == FAILREG_E_BAD_ACTIONS);
    CHECK(failreg_is_set(&node, TEXT("\xc0"), &is_set) == FAILREG_E_NOT_UTF8);
    CHECK(failreg_is_set(&node, TEXT(""), &is_set) == FAILREG_E_BAD_NAME);
    CHECK(failreg_calls(&node, &calls) == FAILREG_OK && calls == 0);
    set(&node, "off");
    pass(&node);
    CHECK(failreg_pass(&node, TEXT("p"), &act) == FAILREG_E_TRACE_FULL);
    CHECK(act.outcome == FAILREG_OUTCOME_UNSET);
    CHECK(faulted(&node, "N1 TraceFull"));
    CHECK(failreg_pass(&node, "\xff", 1, &act) == FAILREG_E_NOT_UTF8);
    failreg_close(&node);
    failreg_close(&node);
    CHECK(failreg_list(&node) == FAILREG_E_CLOSED);
}

/* The error text has a call of its own: it doesn't change what failreg_fetch returns, and writes as
 * much as there is room for. */
static void faults_leave_what_is_to_be_fetched(void)
{
    failreg node = opened(0), other = opened(1);
    char text[] = ".......................";
    size_t length = 7, message_length;
    uint64_t amount;
    bool changed;
    set(&node, "2*off");
    CHECK(failreg_emit(&node, 1) == FAILREG_OK);
    message_length = failreg_fetch(&node, "", 0);
    CHECK(failreg_shift(&node, TEXT("p"), 0, 1, 9, &amount) == FAILREG_E_TOO_FEW_RIGHTS);
    CHECK(failreg_fault(&node, text, 0, &length) == FAILREG_OK && length == 23 && text[0] == '.');
    CHECK(failreg_fault(&node, text, 3, &length) == FAILREG_OK && length == 23);
    CHECK(memcmp(text, "N11.....", 8) == 0 && faulted(&node, "N11 TooFewRights have=2"));
    char *message = fetched(&node, &length);
    CHECK(length == message_length);
    CHECK(failreg_deliver(&other, (uint8_t *)message, length, &changed) == FAILREG_OK && changed);
    free(message);
    failreg_close(&node);
    failreg_close(&other);
    length = 7;
    CHECK(failreg_fault(&node, text, 3, &length) == FAILREG_E_CLOSED && length == 0);
}

/* Returns whether the line of a call is this. */
static bool has_line(failreg *node, uint64_t index, const char *wanted)
{
    return failreg_entry(node, index) == FAILREG_OK && said(node, wanted);
}

/* The lines of a node's journal: its first line, and one for each call of its history. */
static void a_part_has_lines(void)
{
    failreg node = opened(1);
    uint64_t total;
    CHECK(failreg_part_head(&node, TEXT("night \"7\"")) == FAILREG_OK);
    CHECK(said(&node, "{\"cap\":100000,\"failreg\":\"part\",\"node\":1,\"nodes\":2,"
                      "\"run\":\"night \\\"7\\\"\",\"version\":1}"));
    CHECK(failreg_part_head(&node, "\xff", 1) == FAILREG_E_NOT_UTF8);
    CHECK(failreg_entry(&node, 0) == FAILREG_E_NO_ENTRY);
    set(&node, "2*print(\"\xc3\xa9\")->off");
    pass(&node);
    CHECK(failreg_grant(&node, TEXT("p"), 0, 3, &total) == FAILREG_OK);
    CHECK(has_line(&node, 0, "{\"ask\":[\"set\",\"p\",\"2*print(\\\"\xc3\xa9\\\")->off\"],"
                             "\"reply\":[\"set\",1,1],\"words\":[]}"));
    CHECK(has_line(&node, 1, "{\"ask\":[\"pass\",\"p\"],\"reply\":[\"act\",1,1,0,[\"print\","
                             "\"\\\"\xc3\xa9\\\"\"]],\"words\":[]}"));
    CHECK(has_line(&node, 2, "{\"ask\":[\"grant\",\"p\",0,3],\"reply\":[\"granted\",3],\"words\":[]}"));
    CHECK(failreg_entry(&node, 3) == FAILREG_E_NO_ENTRY);
    CHECK(failreg_entry(&node, UINT64_MAX) == FAILREG_E_NO_ENTRY);
    CHECK(failreg_forget(&node) == FAILREG_OK && failreg_entry(&node, 2) == FAILREG_E_NO_ENTRY);
    pass(&node);
    CHECK(failreg_entry(&node, 2) == FAILREG_E_NO_ENTRY && failreg_entry(&node, 3) == FAILREG_OK);
    failreg_close(&node);
    CHECK(failreg_part_head(&node, "", 0) == FAILREG_E_CLOSED);
    CHECK(failreg_entry(&node, 0) == FAILREG_E_CLOSED);
}

/* Repeats the newest call of a node at another one. */
static uint32_t repeat_newest(failreg *from, failreg *at)
{
    uint64_t calls;
    size_t length;
    CHECK(failreg_calls(from, &calls) == FAILREG_OK);
    CHECK(failreg_entry(from, calls - 1) == FAILREG_OK);
    char *line = fetched(from, &length);
    uint32_t status = failreg_repeat(at, line, length);
    free(line);
    return status;
}

/* A node that repeats the calls of another one continues like that one, with its draws. */
static void calls_are_repeated(void)
{
    failreg node = opened(0), other = opened(0);
    failreg_stamp stamp;
    set(&node, "50%3*print(one)->20%panic(two)->off");
    CHECK(repeat_newest(&node, &other) == FAILREG_OK);
    for (int i = 0; i < 40; i++) {
        pass(&node);
        CHECK(repeat_newest(&node, &other) == FAILREG_OK);
    }
    CHECK(failreg_remove(&node, TEXT("q"), &stamp) == FAILREG_OK);
    CHECK(repeat_newest(&node, &other) == FAILREG_OK);
    CHECK(tell_the_same(&node, &other));
    for (int i = 0; i < 40; i++) {
        uint32_t words[2], same[2];
        CHECK(pass(&node).outcome == pass(&other).outcome);
        CHECK(failreg_words(&node, words, 2) == 2 && failreg_words(&other, same, 2) == 2);
        CHECK(words[0] == same[0] && words[1] == same[1]);
    }
    failreg_close(&node);
    failreg_close(&other);
}

/* A text that is no line leaves a node unchanged. If the call has another result than its line, the
 * node is closed. */
static void a_line_that_differs_closes_a_node(void)
{
    static const char *const none[] = { "", "{}", "\xff", "null", "[]", "pass p",
        "{\"cap\":100000,\"failreg\":\"part\",\"node\":0,\"nodes\":2,\"run\":\"\",\"version\":1}",
        "{\"ask\":[\"pass\",\"p\"],\"reply\":[\"unset\"]}",
        "{\"ask\":[\"fly\",\"p\"],\"reply\":[\"unset\"],\"words\":[]}" };
    static const char *const others[] = {
        "{\"ask\":[\"pass\",\"p\"],\"reply\":[\"unset\"],\"words\":[]}",
        "{\"ask\":[\"pass\",\"p\"],\"reply\":[\"act\",1,0,0,[\"off\"]],\"words\":[7]}",
        "{\"ask\":[\"set\",\"p\",\"offf\"],\"reply\":[\"set\",2,0],\"words\":[]}",
        "{\"ask\":[\"grant\",\"p\",0,1],\"reply\":[\"granted\",1],\"words\":[]}",
        "{\"ask\":[\"emit\",0],\"reply\":[\"message\",\"\"],\"words\":[]}",
    };
    uint64_t calls;
    for (size_t i = 0; i < sizeof others / sizeof others[0]; i++) {
        failreg node = opened(0);
        set(&node, "off");
        for (size_t n = 0; n < sizeof none / sizeof none[0]; n++)
            CHECK(failreg_repeat(&node, none[n], strlen(none[n])) == FAILREG_E_NO_LINE);
        CHECK(failreg_calls(&node, &calls) == FAILREG_OK && calls == 1);
        CHECK(failreg_repeat(&node, others[i], strlen(others[i])) == FAILREG_E_DIFFERS);
        CHECK(!node.is_open && failreg_calls(&node, &calls) == FAILREG_E_CLOSED);
        CHECK(failreg_repeat(&node, others[i], strlen(others[i])) == FAILREG_E_CLOSED);
    }
}

/* A text for each status; the version of the library is that of its header. */
static void words_and_versions(void)
{
    CHECK(strcmp(failreg_strerror(FAILREG_OK), "accepted") == 0);
    CHECK(strcmp(failreg_strerror(FAILREG_E_NO_MEMORY), "out of memory") == 0);
    CHECK(strcmp(failreg_strerror(13), "no status of this library") == 0);
    CHECK(failreg_version() == FAILREG_VERSION);
    char text[32];
    snprintf(text, sizeof text, "%d.%d.%d", FAILREG_VERSION / 10000, FAILREG_VERSION / 100 % 100,
             FAILREG_VERSION % 100);
    CHECK(strcmp(text, FAILREG_VERSION_TEXT) == 0);
}

int main(void)
{
    rights_follow_passes();
    a_spread_has_room();
    a_count_is_shared_over_threads();
    looks_end();
    tasks_are_told_and_carried_out();
    words_are_drawn();
    points_have_numbers();
    readers_take_no_entry();
    calls_are_forgotten();
    a_cap_is_of_a_life();
    refusals_are_told();
    faults_leave_what_is_to_be_fetched();
    a_part_has_lines();
    calls_are_repeated();
    a_line_that_differs_closes_a_node();
    words_and_versions();
    puts("the C test passed");
    return 0;
}
