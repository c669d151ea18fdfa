/* Failpoints that carry their actions out, of a C program with threads. */
#include "failreg_point.h"

#include <pthread.h>
#include <stdatomic.h>
#include <stdio.h>
#include <stdlib.h>
#include <string.h>
#include <sys/wait.h>
#include <time.h>
#include <unistd.h>

#define TEXT(s) (s), sizeof(s) - 1
#define CHECK(holds)                                                       \
    do {                                                                   \
        if (!(holds)) {                                                    \
            fprintf(stderr, "%s:%d: not so: %s\n", __FILE__, __LINE__, #holds); \
            exit(1);                                                       \
        }                                                                  \
    } while (0)

enum { THREADS = 4, PASSES = 2000 };

static failreg_program program = FAILREG_PROGRAM;

static void open_node(uint64_t cap)
{
    static const uint8_t seed[32] = { 1, 2, 3 };
    failreg *node = failreg_lock(&program);
    CHECK(failreg_open(node, 0, 1, cap, seed) == FAILREG_OK);
    program.is_over = false;
    failreg_unlock(&program);
}

static void close_node(void)
{
    failreg_close(failreg_lock(&program));
    failreg_unlock(&program);
}

static void set(const char *actions)
{
    failreg_stamp stamp;
    failreg *node = failreg_lock(&program);
    CHECK(failreg_set(node, TEXT("p"), actions, strlen(actions), &stamp) == FAILREG_OK);
    failreg_unlock(&program);
}

static uint64_t calls(void)
{
    uint64_t count;
    CHECK(failreg_calls(failreg_lock(&program), &count) == FAILREG_OK);
    failreg_unlock(&program);
    return count;
}

static uint64_t hits(void)
{
    failreg_wide count;
    CHECK(failreg_hits(failreg_lock(&program), TEXT("p"), &count) == FAILREG_OK);
    failreg_unlock(&program);
    return count.low;
}

static double seconds(void)
{
    struct timespec now;
    clock_gettime(CLOCK_MONOTONIC, &now);
    return (double)now.tv_sec + (double)now.tv_nsec / 1e9;
}

static void pass(void)
{
    FAILREG_POINT(&program, "p");
}

static int number(void)
{
    FAILREG_RETURN(&program, "p", 7);
    return 0;
}

static void nothing(int *after)
{
    FAILREG_RETURN(&program, "p", );
    *after = 1;
}

/* Returns what a call prints on standard error in a process of its own, and how that ends. */
static const char *printed_by(void (*call)(void), int *status)
{
    static char text[4096];
    size_t length = 0;
    ssize_t count;
    int ends[2];
    CHECK(pipe(ends) == 0);
    fflush(stdout);
    pid_t child = fork();
    CHECK(child >= 0);
    if (child == 0) {
        dup2(ends[1], STDERR_FILENO);
        call();
        close_node();
        _exit(0);
    }
    close(ends[1]);
    while ((count = read(ends[0], text + length, sizeof text - 1 - length)) > 0)
        length += (size_t)count;
    text[length] = 0;
    close(ends[0]);
    CHECK(waitpid(child, status, 0) == child);
    return text;
}

static bool prints(const char *actions, const char *wanted)
{
    int status;
    set(actions);
    return strcmp(printed_by(pass, &status), wanted) == 0 && WIFEXITED(status)
        && WEXITSTATUS(status) == 0;
}

/* The text comes first: what else is printed is a tool's, under which this runs. */
static bool panics(const char *actions, const char *wanted)
{
    int status;
    set(actions);
    return strncmp(printed_by(pass, &status), wanted, strlen(wanted)) == 0 && WIFSIGNALED(status)
        && WTERMSIG(status) == SIGABRT;
}

static void actions_are_carried_out(void)
{
    char argument[16] = "?";
    int after = 0;
    double begun;
    open_node(100000);
    CHECK(number() == 0 && calls() == 0);
    set("off");
    CHECK(number() == 0 && calls() == 2);
    nothing(&after);
    CHECK(after == 1 && !failreg_eval(&program, "p", argument, sizeof argument));
    CHECK(strcmp(argument, "?") == 0 && !failreg_eval(&program, "no name", NULL, 0));
    set("2*return(disk full)->return");
    after = 0;
    CHECK(number() == 7 && failreg_eval(&program, "p", argument, sizeof argument));
    CHECK(strcmp(argument, "disk full") == 0);
    nothing(&after);
    CHECK(after == 0 && failreg_eval(&program, "p", argument, sizeof argument));
    CHECK(strcmp(argument, "") == 0);
    set("return(disk full)");
    CHECK(failreg_eval(&program, "p", argument, 5) && strcmp(argument, "disk") == 0);
    CHECK(failreg_eval(&program, "p", argument, 1) && strcmp(argument, "") == 0);
    for (int i = 0; i < 2; i++) {
        set(i ? "sleep(30)" : "delay(30)");
        begun = seconds();
        pass();
        CHECK(seconds() - begun >= 0.03);
    }
    set("1*yield->1*off->0%return");
    pass();
    pass();
    pass();
    CHECK(prints("print(\xc3\xa9 %s)", "\xc3\xa9 %s\n") && prints("print()", "\n"));
    CHECK(prints("print", "failpoint p executed.\n"));
    CHECK(panics("panic(boom %s)", "boom %s\n") && panics("panic", "failpoint p panic\n"));
    CHECK(panics("return", "Return is not supported for the fail point \"p\"\n"));
    close_node();
    CHECK(number() == 0);
}

/* How many threads have passed the point. */
static atomic_int passed;

static void *pass_in_thread(void *unused)
{
    pass();
    passed++;
    return unused;
}

static void change(int how)
{
    failreg_stamp stamp;
    if (how == 0)
        set("off");
    else if (how == 1) {
        CHECK(failreg_remove(failreg_lock(&program), TEXT("p"), &stamp) == FAILREG_OK);
        failreg_unlock(&program);
    } else
        close_node();
}

/* A pause ends with the point's configuration, or with the node, and not before. */
static void a_pause_ends_with_its_configuration(void)
{
    for (int how = 0; how < 3; how++) {
        pthread_t paused[2];
        bool is_set;
        passed = 0;
        open_node(100000);
        set("pause");
        for (int i = 0; i < 2; i++)
            CHECK(pthread_create(&paused[i], NULL, pass_in_thread, NULL) == 0);
        while (hits() < 2)
            sched_yield();
        for (int i = 0; i < 10; i++) {
            /* Each wakes the threads up, and changes nothing. */
            CHECK(failreg_is_set(failreg_lock(&program), TEXT("q"), &is_set) == FAILREG_OK);
            failreg_unlock(&program);
            failreg_sleep(2);
        }
        CHECK(calls() == 3 && passed == 0);
        double begun = seconds();
        change(how);
        for (int i = 0; i < 2; i++)
            CHECK(pthread_join(paused[i], NULL) == 0);
        CHECK(seconds() - begun < 5);
        close_node();
    }
}

static void *count_returns(void *unused)
{
    (void)unused;
    size_t ran = 0;
    for (int i = 0; i < PASSES; i++)
        ran += number() == 7;
    return (void *)ran;
}

static void a_count_holds_over_threads(void)
{
    pthread_t threads[THREADS];
    size_t ran = 0;
    uint64_t kept;
    open_node(FAILREG_NO_CAP);
    set("1000*return->off");
    for (int t = 0; t < THREADS; t++)
        CHECK(pthread_create(&threads[t], NULL, count_returns, NULL) == 0);
    for (int t = 0; t < THREADS; t++) {
        void *each;
        CHECK(pthread_join(threads[t], &each) == 0);
        ran += (size_t)each;
    }
    CHECK(ran == 1000 && calls() == THREADS * PASSES + 1);
    /* The history is discarded now and then. */
    CHECK(failreg_kept(failreg_lock(&program), &kept) == FAILREG_OK && kept <= FAILREG_MOST_KEPT);
    failreg_unlock(&program);
    close_node();
}

/* At the call limit one evaluation says so, paused threads continue, and points do nothing. */
static void pass_three_times(void)
{
    pass();
    pass();
    CHECK(number() == 0);
}

static void the_limit_ends_the_points(void)
{
    int status;
    pthread_t paused;
    failreg_stamp stamp;
    open_node(2);
    set("return");
    CHECK(number() == 7);
    const char *wanted = "failreg: an evaluation was rejected: point \"p\": N1 TraceFull; its "
                         "failpoints do nothing from now on\n";
    CHECK(strcmp(printed_by(pass_three_times, &status), wanted) == 0 && status == 0);
    close_node();
    open_node(3);
    set("pause");
    CHECK(failreg_set(failreg_lock(&program), TEXT("q"), TEXT("off"), &stamp) == FAILREG_OK);
    failreg_unlock(&program);
    CHECK(pthread_create(&paused, NULL, pass_in_thread, NULL) == 0);
    while (hits() < 1)
        sched_yield();
    failreg_sleep(50);
    fputs("one line follows: ", stderr);
    CHECK(!failreg_eval(&program, "q", NULL, 0));
    CHECK(pthread_join(paused, NULL) == 0);
    close_node();
}

static void *send_after_100_ms(void *unused)
{
    failreg_sleep(100);
    passed = 1;
    failreg_sent(&program);
    return unused;
}

/* A point that a request set acts once the response is sent, or a second later. */
static void responses_are_sent_first(void)
{
    pthread_t sender;
    uint16_t status;
    double begun;
    open_node(100000);
    for (int is_sent = 1; is_sent >= 0; is_sent--) {
        failreg *node = failreg_lock(&program);
        CHECK(failreg_answer(node, TEXT("PUT"), TEXT("/fail/p"), (const uint8_t *)"return", 6, &status)
                  == FAILREG_OK && status == 200);
        failreg_hold(&program);
        failreg_unlock(&program);
        passed = 0;
        if (is_sent)
            CHECK(pthread_create(&sender, NULL, send_after_100_ms, NULL) == 0);
        begun = seconds();
        CHECK(number() == 7 && passed == is_sent);
        CHECK(seconds() - begun >= (is_sent ? 0.1 : 0.9) && seconds() - begun < 5);
        /* Nothing waits any more. */
        begun = seconds();
        CHECK(number() == 7 && seconds() - begun < 0.5);
        if (is_sent)
            CHECK(pthread_join(sender, NULL) == 0);
        else
            failreg_sent(&program);
    }
    close_node();
}

static uint64_t recorded;

static bool record_three(failreg *node)
{
    CHECK(failreg_calls(node, &recorded) == FAILREG_OK);
    CHECK(failreg_entry(node, recorded - 1) == FAILREG_OK && failreg_forget(node) == FAILREG_OK);
    return recorded < 4;
}

/* Each evaluation is recorded before its action; without its record it has none, nor has any later
 * one. */
static void evaluations_are_recorded(void)
{
    char argument[8];
    open_node(100000);
    set("return(text)");
    program.record = record_three;
    for (uint64_t call = 2; call < 4; call++) {
        CHECK(failreg_eval(&program, "p", argument, sizeof argument) && recorded == call);
        CHECK(strcmp(argument, "text") == 0);
    }
    CHECK(number() == 0 && recorded == 4);
    CHECK(number() == 0 && recorded == 4);
    program.record = NULL;
    close_node();
}

int main(void)
{
    actions_are_carried_out();
    a_pause_ends_with_its_configuration();
    a_count_holds_over_threads();
    the_limit_ends_the_points();
    evaluations_are_recorded();
    responses_are_sent_first();
    puts("the C test of points passed");
    return 0;
}
