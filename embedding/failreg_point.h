/* Failpoints in one line each, which carry their actions out as the Rust crate does:
 *
 *     #include "failreg_point.h"
 *
 *     static failreg_program program = FAILREG_PROGRAM;
 *
 *     int save(int order)
 *     {
 *         FAILREG_RETURN(&program, "save", -1);
 *         return order;
 *     }
 *
 * A failreg_program is a node with its lock: any number of threads may use it. It needs POSIX threads
 * (-pthread). With -std=c11 include this header first, or define _POSIX_C_SOURCE as 200809L. The calls
 * of failreg.h are proved; this header is tested. */
#ifndef FAILREG_POINT_H
#define FAILREG_POINT_H

#if defined(__STRICT_ANSI__) && !defined(_POSIX_C_SOURCE)
#define _POSIX_C_SOURCE 200809L
#endif

#include "failreg.h"

#include <pthread.h>
#include <sched.h>
#include <stdio.h>
#include <stdlib.h>
#include <string.h>
#include <time.h>

#if defined(__GLIBC__) && !defined(__USE_POSIX199309)
#error "include failreg_point.h before other headers, or define _POSIX_C_SOURCE as 200809L"
#endif

#ifdef __cplusplus
extern "C" {
#endif

/* The longest text of an action, in bytes, with a terminating zero. */
#define FAILREG_TEXT_ROOM 1025

/* How many evaluations the call history has at most, if nothing records them. */
#define FAILREG_MOST_KEPT 1024

typedef struct failreg_program {
    /* Open it with failreg_open before other threads use it. Afterwards use it between failreg_lock
     * and failreg_unlock. */
    failreg node;
    pthread_mutex_t mutex;
    /* Signaled when configurations may have changed. */
    pthread_cond_t changed;
    /* NULL, or a function that writes the line of the newest call to the node's journal, before the
     * action is carried out. It is called with the lock, and may call failreg_forget. If it returns
     * false, the action isn't carried out, and no point does anything from then on. */
    bool (*record)(failreg *node);
    /* Private. */
    unsigned evaluations, unsent;
    struct timespec held_at;
    bool is_over;
} failreg_program;

/* The value of a program before its node is opened. */
#define FAILREG_PROGRAM \
    { FAILREG_CLOSED_NODE, PTHREAD_MUTEX_INITIALIZER, PTHREAD_COND_INITIALIZER, NULL, 0, 0, { 0, 0 }, \
      false }

/* Takes the lock and returns the node, for any calls. */
static inline failreg *failreg_lock(failreg_program *program)
{
    unsigned looks = 0;
    while (pthread_mutex_trylock(&program->mutex) != 0)
        if (!failreg_look_again(&looks)) {
            pthread_mutex_lock(&program->mutex);
            break;
        }
    return &program->node;
}

/* Releases the lock. Paused threads continue if their point has another configuration by now. */
static inline void failreg_unlock(failreg_program *program)
{
    pthread_cond_broadcast(&program->changed);
    pthread_mutex_unlock(&program->mutex);
}

/* Lets evaluations wait until failreg_sent, but at most one second. Call it with the lock, after
 * failreg_answer and before the response is sent: so the client receives it, even if the action of a
 * point that it set ends the program. */
static inline void failreg_hold(failreg_program *program)
{
    program->unsent++;
    clock_gettime(CLOCK_MONOTONIC, &program->held_at);
}

/* Takes the lock, and ends what failreg_hold began: the response is sent, or can't be. */
static inline void failreg_sent(failreg_program *program)
{
    failreg_lock(program);
    program->unsent--;
    pthread_mutex_unlock(&program->mutex);
}

/* Private: waits until responses are sent, but at most until one second after the last failreg_hold.
 * The lock is taken. */
static inline void failreg_await_sent(failreg_program *program)
{
    const struct timespec tick = { 0, 1000000 };
    struct timespec now;
    while (program->unsent > 0) {
        clock_gettime(CLOCK_MONOTONIC, &now);
        if (now.tv_sec > program->held_at.tv_sec + 1
            || (now.tv_sec == program->held_at.tv_sec + 1 && now.tv_nsec >= program->held_at.tv_nsec))
            return;
        pthread_mutex_unlock(&program->mutex);
        nanosleep(&tick, NULL);
        failreg_lock(program);
    }
}

/* Private: evaluates a point that is set, and returns its text. The lock is taken. */
static inline bool failreg_evaluate(failreg_program *program, const char *name, failreg_act *act,
                                    char *text)
{
    failreg *node = &program->node;
    size_t name_len = strlen(name), text_len = 0;
    bool is_set;
    text[0] = 0;
    if (program->is_over || failreg_is_set(node, name, name_len, &is_set) != FAILREG_OK || !is_set)
        return false;
    uint32_t status = failreg_pass(node, name, name_len, act);
    if (status != FAILREG_OK) {
        failreg_fault(node, text, FAILREG_TEXT_ROOM - 1, &text_len);
        text[text_len] = 0;
        program->is_over = status == FAILREG_E_TRACE_FULL;
        fprintf(stderr, "failreg: an evaluation was rejected: point \"%s\": %s%s\n", name,
                text_len > 0 ? text : failreg_strerror(status),
                program->is_over ? "; its failpoints do nothing from now on" : "");
        pthread_cond_broadcast(&program->changed);
        return false;
    }
    if (act->has_text)
        text_len = failreg_fetch(node, text, FAILREG_TEXT_ROOM - 1);
    text[text_len] = 0;
    if (program->record != NULL && !program->record(node)) {
        program->is_over = true;
        pthread_cond_broadcast(&program->changed);
        return false;
    }
    if (program->record == NULL && ++program->evaluations >= FAILREG_MOST_KEPT) {
        failreg_forget(node);
        program->evaluations = 0;
    }
    return act->outcome == FAILREG_OUTCOME_ACT;
}

/* Private: waits until a point isn't set any more under the version of an evaluation. */
static inline void failreg_wait_out(failreg_program *program, const char *name,
                                    const failreg_act *act)
{
    const failreg_stamp stamp = { act->clock, act->node };
    bool is_over = false;
    failreg *node = failreg_lock(program);
    while (!program->is_over
           && failreg_pause_over(node, name, strlen(name), &stamp, &is_over) == FAILREG_OK
           && !is_over)
        pthread_cond_wait(&program->changed, &program->mutex);
    pthread_mutex_unlock(&program->mutex);
}

/* Private: sleeps. */
static inline void failreg_sleep(uint64_t millis)
{
    struct timespec left;
    left.tv_sec = (time_t)(millis / 1000);
    left.tv_nsec = (long)(millis % 1000) * 1000000;
    while (nanosleep(&left, &left) != 0)
        ;
}

/* Private: keeps the processor busy. */
static inline void failreg_delay(uint64_t millis)
{
    struct timespec begun, now;
    uint64_t passed;
    clock_gettime(CLOCK_MONOTONIC, &begun);
    do {
        clock_gettime(CLOCK_MONOTONIC, &now);
        passed = (uint64_t)((int64_t)(now.tv_sec - begun.tv_sec) * 1000000000
                            + (now.tv_nsec - begun.tv_nsec));
    } while (passed / 1000000 < millis);
}

/* Evaluates a point, if it is set, and carries its action out. Returns whether the action is `return`,
 * and then copies its argument to `argument`, as many bytes as fit into `room` with a terminating
 * zero; `argument` may be NULL if `room` is 0. `panic` prints its text on standard error and aborts,
 * `print` prints it on standard error, and `pause` waits until the point has another configuration,
 * or the node is closed. A rejected evaluation prints its error, and the point does nothing. */
static inline bool failreg_eval(failreg_program *program, const char *name, char *argument,
                                size_t room)
{
    failreg_act act;
    char text[FAILREG_TEXT_ROOM];
    failreg_lock(program);
    failreg_await_sent(program);
    bool is_due = failreg_evaluate(program, name, &act, text);
    pthread_mutex_unlock(&program->mutex);
    if (!is_due)
        return false;
    switch (act.task) {
    case FAILREG_TASK_RETURN:
        if (room > 0)
            snprintf(argument, room, "%s", text);
        return true;
    case FAILREG_TASK_SLEEP:
        failreg_sleep(act.millis);
        break;
    case FAILREG_TASK_PANIC:
        if (act.has_text)
            fprintf(stderr, "%s\n", text);
        else
            fprintf(stderr, "failpoint %s panic\n", name);
        abort();
    case FAILREG_TASK_PRINT:
        if (act.has_text)
            fprintf(stderr, "%s\n", text);
        else
            fprintf(stderr, "failpoint %s executed.\n", name);
        break;
    case FAILREG_TASK_PAUSE:
        failreg_wait_out(program, name, &act);
        break;
    case FAILREG_TASK_YIELD:
        sched_yield();
        break;
    case FAILREG_TASK_DELAY:
        failreg_delay(act.millis);
        break;
    default:
        break;
    }
    return false;
}

/* Evaluates a point, if it is set, and carries its action out. `return` aborts: there is nothing to
 * return. */
#define FAILREG_POINT(program, name)                                                                \
    do {                                                                                            \
        if (failreg_eval((program), (name), NULL, 0)) {                                             \
            fprintf(stderr, "Return is not supported for the fail point \"%s\"\n", (name));         \
            abort();                                                                                \
        }                                                                                           \
    } while (0)

/* The same, but `return` returns `value` from the function; leave it empty in a function without a
 * value. */
#define FAILREG_RETURN(program, name, value)                                                        \
    do {                                                                                            \
        if (failreg_eval((program), (name), NULL, 0))                                               \
            return value;                                                                           \
    } while (0)

#ifdef __cplusplus
}
#endif
#endif
