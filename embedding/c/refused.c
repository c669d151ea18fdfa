/* Lets each allocation of each call fail in turn, alone and with all later ones. Such a call
 * reports it, returns nothing and leaves the node unchanged; repeated, it works as if nothing had
 * failed. Link with --wrap=malloc,--wrap=realloc, so that the library's allocations come here. */
#include "failreg.h"

#include <limits.h>
#include <stdio.h>
#include <stdlib.h>
#include <string.h>

#define TEXT(s) (s), sizeof(s) - 1
#define CHECK(holds)                                                                           \
    do {                                                                                       \
        if (!(holds)) {                                                                        \
            fprintf(stderr, "%s:%d: not so at %s, growth %ld: %s\n", __FILE__, __LINE__, tried, \
                    refused.first, #holds);                                                    \
            exit(1);                                                                           \
        }                                                                                      \
    } while (0)

enum { NUMBER = 1, NODES = 32, OTHER = 2 };

/* The numbers of the points `p` and `q`. */
enum { AT_P, AT_Q };

static const uint8_t SEED[32] = { 7 };
static const char *tried = "the start";

/* Which allocations fail, from 1 on, and how many there were. */
static struct {
    long first, last, seen, met;
} refused;

void *__real_malloc(size_t size);
void *__real_realloc(void *old, size_t size);

static bool refuses(void)
{
    refused.seen++;
    bool is_refused = refused.first <= refused.seen && refused.seen <= refused.last;
    refused.met += is_refused;
    return is_refused;
}

void *__wrap_malloc(size_t size)
{
    return refuses() ? NULL : __real_malloc(size);
}

void *__wrap_realloc(void *old, size_t size)
{
    return refuses() ? NULL : __real_realloc(old, size);
}

static void refuse(long first, long last)
{
    refused.first = first;
    refused.last = last;
    refused.seen = refused.met = 0;
}

/* What a call returned, with what failreg_fetch returns after it. */
typedef struct told {
    uint32_t status;
    failreg_stamp stamp;
    failreg_act act;
    uint64_t number;
    bool flag;
    size_t length;
    char bytes[4096];
} told;

static bool is_same_stamp(const failreg_stamp *one, const failreg_stamp *other)
{
    return one->clock == other->clock && one->node == other->node;
}

static bool is_same_act(const failreg_act *one, const failreg_act *other)
{
    return one->clock == other->clock && one->node == other->node && one->term == other->term
           && one->outcome == other->outcome && one->task == other->task
           && one->millis == other->millis && one->has_text == other->has_text
           && one->text_len == other->text_len;
}

static bool is_told_same(const told *one, const told *other)
{
    return one->status == other->status && one->number == other->number
           && one->flag == other->flag && is_same_stamp(&one->stamp, &other->stamp)
           && is_same_act(&one->act, &other->act) && one->length == other->length
           && memcmp(one->bytes, other->bytes, one->length) == 0;
}

static void fetch(failreg *node, told *t)
{
    t->length = failreg_fetch(node, t->bytes, sizeof t->bytes);
    CHECK(t->length <= sizeof t->bytes);
}

/* The message of node 0 to this one that sets `z` to `2*off`, after an evaluation. */
static told message;

static void set(failreg *n, told *t)
{
    t->status = failreg_set(n, TEXT("a"), TEXT("20.5%3*print(hi)->panic"), &t->stamp);
}

static void set_badly(failreg *n, told *t)
{
    t->status = failreg_set(n, TEXT("a!"), TEXT("off"), &t->stamp);
}

static void set_to_no_actions(failreg *n, told *t)
{
    t->status = failreg_set(n, TEXT("a"), TEXT("fly"), &t->stamp);
}

static void remove_point(failreg *n, told *t)
{
    t->status = failreg_remove(n, TEXT("p"), &t->stamp);
}

static void load(failreg *n, told *t)
{
    uint16_t entries;
    t->status = failreg_load(n, TEXT("a=1*off;b=2*off->panic;p=off"), &entries);
    t->number = entries;
}

static void load_badly(failreg *n, told *t)
{
    uint16_t entries;
    t->status = failreg_load(n, TEXT("a=1*off;b"), &entries);
    t->number = entries;
}

static void pass_with_chance(failreg *n, told *t)
{
    t->status = failreg_pass(n, TEXT("p"), &t->act);
    fetch(n, t);
}

static void pass_counted(failreg *n, told *t)
{
    t->status = failreg_pass(n, TEXT("q"), &t->act);
    fetch(n, t);
}

static void pass_with_word(failreg *n, told *t)
{
    const uint32_t word = 7;
    t->status = failreg_pass_with(n, TEXT("p"), &word, 1, &t->act);
    fetch(n, t);
}

/* The number of a point that has one, and of a new one. */
static void point(failreg *n, told *t)
{
    uint32_t number;
    t->status = failreg_point(n, TEXT("q"), &number);
    t->number = number;
}

static void new_point(failreg *n, told *t)
{
    uint32_t number;
    t->status = failreg_point(n, TEXT("new"), &number);
    t->number = number;
}

static void pass_at(failreg *n, told *t)
{
    t->status = failreg_pass_at(n, AT_P, &t->act);
    fetch(n, t);
}

static void pass_counted_at(failreg *n, told *t)
{
    t->status = failreg_pass_at(n, AT_Q, &t->act);
    fetch(n, t);
}

static void shift(failreg *n, told *t)
{
    t->status = failreg_shift(n, TEXT("q"), 0, 31, 1, &t->number);
}

static void shift_too_much(failreg *n, told *t)
{
    t->status = failreg_shift(n, TEXT("q"), 0, 31, 9, &t->number);
}

static void grant(failreg *n, told *t)
{
    t->status = failreg_grant(n, TEXT("p"), 1, 5, &t->number);
}

static void emit(failreg *n, told *t)
{
    t->status = failreg_emit(n, 31);
    if (t->status == FAILREG_OK)
        fetch(n, t);
}

static void deliver(failreg *n, told *t)
{
    t->status = failreg_deliver(n, (const uint8_t *)message.bytes, message.length, &t->flag);
}

static void deliver_a_part(failreg *n, told *t)
{
    t->status = failreg_deliver(n, (const uint8_t *)message.bytes, message.length - 1, &t->flag);
}

static void list(failreg *n, told *t)
{
    t->status = failreg_list(n);
    if (t->status == FAILREG_OK)
        fetch(n, t);
}

static void fault(failreg *n, told *t)
{
    t->status = failreg_fault(n, t->bytes, sizeof t->bytes, &t->length);
}

static void part_head(failreg *n, told *t)
{
    t->status = failreg_part_head(n, TEXT("night 7"));
    if (t->status == FAILREG_OK)
        fetch(n, t);
}

/* The last call that was accepted. */
static void entry(failreg *n, told *t)
{
    t->status = failreg_entry(n, 3);
    if (t->status == FAILREG_OK)
        fetch(n, t);
}

static void no_entry(failreg *n, told *t)
{
    t->status = failreg_entry(n, 4);
}

static void repeat(failreg *n, told *t)
{
    t->status = failreg_repeat(n, TEXT("{\"ask\":[\"set\",\"a\",\"2*print(hi)->off\"],"
                                       "\"reply\":[\"set\",3,1],\"words\":[]}"));
}

static void repeat_a_pass(failreg *n, told *t)
{
    t->status = failreg_repeat(n, TEXT("{\"ask\":[\"pass\",\"p\"],\"reply\":[\"act\",1,1,1,"
                                       "[\"panic\",null]],\"words\":[4294967295]}"));
}

static void repeat_no_line(failreg *n, told *t)
{
    t->status = failreg_repeat(n, TEXT("{\"ask\":[\"pass\",\"p\"]}"));
}

static const struct {
    const char *name;
    void (*call)(failreg *, told *);
} CALLS[] = {
    { "set", set },
    { "a bad name", set_badly },
    { "bad actions", set_to_no_actions },
    { "remove", remove_point },
    { "load", load },
    { "a bad load", load_badly },
    { "a pass with a chance", pass_with_chance },
    { "a counted pass", pass_counted },
    { "a pass with a word", pass_with_word },
    { "the number of a point", point },
    { "the number of a new point", new_point },
    { "a pass with a chance by number", pass_at },
    { "a counted pass by number", pass_counted_at },
    { "shift", shift },
    { "too great a shift", shift_too_much },
    { "grant", grant },
    { "emit", emit },
    { "deliver", deliver },
    { "a message cut short", deliver_a_part },
    { "list", list },
    { "fault", fault },
    { "part head", part_head },
    { "entry", entry },
    { "an entry that there isn't", no_entry },
    { "repeat", repeat },
    { "repeat a pass", repeat_a_pass },
    { "repeat no line", repeat_no_line },
};

static failreg opened(uint8_t number)
{
    failreg node = FAILREG_CLOSED_NODE;
    CHECK(failreg_open(&node, number, NODES, 100, SEED) == FAILREG_OK);
    return node;
}

/* A node with an accepted and a rejected call. */
static failreg prepared(void)
{
    told t;
    uint32_t p, q;
    failreg node = opened(NUMBER);
    CHECK(failreg_point(&node, TEXT("p"), &p) == FAILREG_OK && p == AT_P);
    CHECK(failreg_point(&node, TEXT("q"), &q) == FAILREG_OK && q == AT_Q);
    CHECK(failreg_set(&node, TEXT("p"), TEXT("20%3*print(hi)->2*panic"), &t.stamp) == FAILREG_OK);
    CHECK(failreg_set(&node, TEXT("q"), TEXT("2*off->yield"), &t.stamp) == FAILREG_OK);
    CHECK(failreg_grant(&node, TEXT("q"), 0, 4, &t.number) == FAILREG_OK);
    CHECK(failreg_shift(&node, TEXT("q"), 0, 31, 2, &t.number) == FAILREG_OK);
    CHECK(failreg_shift(&node, TEXT("q"), 0, 31, 9, &t.number) == FAILREG_E_TOO_FEW_RIGHTS);
    return node;
}

/* Returns whether two nodes list the same points, accepted as many calls, of which as many changed
 * what they know, and know as many versions of node 0. */
static bool shows_same(failreg *one, failreg *other)
{
    told a = { 0 }, b = { 0 };
    uint64_t calls[2], version[2], known[2];
    failreg *both[2] = { one, other };
    list(one, &a);
    list(other, &b);
    for (int n = 0; n < 2; n++) {
        CHECK(failreg_calls(both[n], &calls[n]) == FAILREG_OK);
        CHECK(failreg_state_version(both[n], &version[n]) == FAILREG_OK);
        CHECK(failreg_known(both[n], 0, &known[n]) == FAILREG_OK);
    }
    return is_told_same(&a, &b) && calls[0] == calls[1] && version[0] == version[1]
           && known[0] == known[1];
}

/* Returns whether two nodes show the same, emit everything they know in the same message, and draw
 * the same numbers after that. */
static bool are_same(failreg *one, failreg *other)
{
    told a = { 0 }, b = { 0 };
    if (!shows_same(one, other))
        return false;
    CHECK(failreg_emit(one, OTHER) == FAILREG_OK && failreg_emit(other, OTHER) == FAILREG_OK);
    fetch(one, &a);
    fetch(other, &b);
    for (int pass = 0; pass < 3; pass++) {
        CHECK(failreg_set(one, TEXT("c"), TEXT("50%off"), &a.stamp) == FAILREG_OK);
        CHECK(failreg_set(other, TEXT("c"), TEXT("50%off"), &b.stamp) == FAILREG_OK);
        CHECK(failreg_pass(one, TEXT("c"), &a.act) == FAILREG_OK);
        CHECK(failreg_pass(other, TEXT("c"), &b.act) == FAILREG_OK);
        uint32_t words[2];
        CHECK(failreg_words(one, &words[0], 1) == 1 && failreg_words(other, &words[1], 1) == 1);
        if (words[0] != words[1])
            return false;
    }
    return is_told_same(&a, &b);
}

/* Makes a call while allocations fail, and again. Returns whether any failed. */
static bool is_refused(void (*call)(failreg *, told *), long first, long last)
{
    static const told nothing = { .status = FAILREG_E_NO_MEMORY };
    told wanted = { 0 }, got = { 0 };
    failreg node = prepared(), before = prepared(), other = prepared();
    call(&other, &wanted);
    refuse(first, last);
    call(&node, &got);
    bool any = refused.met > 0;
    refuse(0, 0);
    if (got.status == FAILREG_E_NO_MEMORY) {
        CHECK(is_told_same(&got, &nothing));
        CHECK(shows_same(&node, &before));
        call(&node, &got);
    } else {
        CHECK(!any || last == first);
    }
    CHECK(is_told_same(&got, &wanted));
    CHECK(are_same(&node, &other));
    failreg_close(&node);
    failreg_close(&before);
    failreg_close(&other);
    return any;
}

/* A node that can't be opened stays closed, and can be opened later. */
static bool open_is_refused(long first, long last)
{
    failreg node = FAILREG_CLOSED_NODE;
    uint64_t calls;
    refuse(first, last);
    uint32_t status = failreg_open(&node, NUMBER, NODES, 100, SEED);
    bool any = refused.met > 0;
    refuse(0, 0);
    CHECK(status == (any ? FAILREG_E_NO_MEMORY : FAILREG_OK));
    if (any) {
        CHECK(failreg_calls(&node, &calls) == FAILREG_E_CLOSED);
        CHECK(failreg_open(&node, NUMBER, NODES, 100, SEED) == FAILREG_OK);
    }
    CHECK(failreg_calls(&node, &calls) == FAILREG_OK && calls == 0);
    failreg_close(&node);
    return any;
}

int main(void)
{
    failreg sender = opened(0);
    CHECK(failreg_set(&sender, TEXT("z"), TEXT("2*off"), &message.stamp) == FAILREG_OK);
    CHECK(failreg_pass(&sender, TEXT("z"), &message.act) == FAILREG_OK);
    CHECK(failreg_emit(&sender, NUMBER) == FAILREG_OK);
    fetch(&sender, &message);
    failreg_close(&sender);
    long growths = 0;
    tried = "open";
    for (long first = 1; open_is_refused(first, first) && open_is_refused(first, LONG_MAX); first++)
        growths++;
    CHECK(growths > 0);
    for (size_t i = 0; i < sizeof CALLS / sizeof CALLS[0]; i++) {
        tried = CALLS[i].name;
        for (long first = 1; is_refused(CALLS[i].call, first, first); first++) {
            CHECK(is_refused(CALLS[i].call, first, LONG_MAX));
            growths++;
        }
    }
    printf("%ld growths refused, each alone and with all behind it\n", growths);
    return 0;
}
