"""Runs programs over calls for memory that are counted, and refuses some of them."""

import contextlib
import os
import re
import subprocess
import tempfile

# The C library's calls for memory. They are counted from the start, or where the start isn't
# counted after `ready` or `listening` was written, up to the next write of standard output or the
# end, and then told.
COUNTED = r"""
#include <errno.h>
#include <fcntl.h>
#include <pthread.h>
#include <stdio.h>
#include <stdlib.h>
#include <string.h>
#include <sys/auxv.h>
#include <sys/syscall.h>
#include <sys/uio.h>
#include <unistd.h>

void *__libc_malloc(size_t);
void *__libc_calloc(size_t, size_t);
void *__libc_realloc(void *, size_t);
extern void *__libc_stack_end;

static int counts;
static long growths, refused, first, last;
static const char *stacks;

/* A thread's stack has fewer bytes, and its descriptor lies behind it. */
#define MOST_OF_STACK (1L << 30)

__attribute__((constructor)) static void start(void) {
    first = atol(getenv("FIRST_REFUSED"));
    last = atol(getenv("LAST_REFUSED"));
    counts = getenv("START_IS_COUNTED") != NULL;
    stacks = getenv("STACKS");
}

/* Appends the stack from a return address on to the file that STACKS names, behind the address of the program's entry and
   the number of bytes. */
static void keep_stack(char *stack) {
    char *own = (char *)pthread_self(), *end = __libc_stack_end;
    if (stack < own && own - stack < MOST_OF_STACK) end = own;
    size_t head[] = {getauxval(AT_ENTRY), end - stack};
    struct iovec parts[] = {{head, sizeof head}, {stack, head[1]}};
    int file = open(stacks, O_WRONLY | O_APPEND);
    if (file < 0 || writev(file, parts, 2) != (ssize_t)(sizeof head + head[1]) || close(file)) abort();
}

/* Takes the frame of the call, whose return address lies behind the frame pointer that it saved. */
static int refuses(void **frame) {
    if (!counts) return 0;
    long growth = __atomic_add_fetch(&growths, 1, __ATOMIC_SEQ_CST);
    if (growth < first || growth > last) return 0;
    __atomic_add_fetch(&refused, 1, __ATOMIC_SEQ_CST);
    if (stacks) keep_stack((char *)(frame + 1));
    errno = ENOMEM;
    return 1;
}

#define REFUSED refuses(__builtin_frame_address(0))
void *malloc(size_t size) { return REFUSED ? NULL : __libc_malloc(size); }
void *calloc(size_t count, size_t size) { return REFUSED ? NULL : __libc_calloc(count, size); }
void *realloc(void *old, size_t size) { return REFUSED ? NULL : __libc_realloc(old, size); }

static void stop_counting(void) {
    if (!counts) return;
    counts = 0;
    dprintf(2, "%ld growths refused of %ld\n", refused, growths);
}

__attribute__((destructor)) static void end(void) { stop_counting(); }

/* A program that ends by a status runs no destructors. */
__attribute__((noreturn)) void _exit(int status) {
    stop_counting();
    syscall(SYS_exit_group, status);
    __builtin_unreachable();
}

ssize_t write(int file, const void *bytes, size_t length) {
    if (file == 1) {
        stop_counting();
        counts = length >= 5 && (memcmp(bytes, "ready", 5) == 0 || memcmp(bytes, "liste", 5) == 0);
    }
    return syscall(SYS_write, file, bytes, length);
}
"""

# A number of growths that no run comes to.
ALL = 2**40


def growths_of(errors):
    """How many growths were refused, and how many there were, by the last of these lines that says so."""
    told = [told for line in errors if (told := re.fullmatch(r"(\d+) growths refused of (\d+)", line))]
    return tuple(map(int, told[-1].groups())) if told else (0, 0)


class CountedMemory:
    """The library of those calls, made in a folder. `note` is given the stacks of the refused ones, run by run."""

    def __init__(self, folder, note=None):
        self.folder, self.note = folder, note
        self.library = os.path.join(folder, "counted.so")
        source = os.path.join(folder, "counted.c")
        with open(source, "w", encoding="utf-8") as file:
            file.write(COUNTED)
        flags = ["-O1", "-fno-builtin", "-shared", "-fPIC"]
        subprocess.run(["cc", *flags, "-o", self.library, source], check=True)

    @contextlib.contextmanager
    def environment(self, first=ALL, last=ALL, start_is_counted=False):
        """The environment of one run of a program, of which the growths from first to last are refused."""
        environment = {"LD_PRELOAD": self.library, "FIRST_REFUSED": str(first), "LAST_REFUSED": str(last)}
        if start_is_counted:
            environment["START_IS_COUNTED"] = "yes"
        if self.note is None:
            yield environment
            return
        with tempfile.NamedTemporaryFile(dir=self.folder) as stacks:
            yield environment | {"STACKS": stacks.name}
            self.note(stacks.read())

    def run(self, words, first=ALL, last=ALL, start_is_counted=False, **how):
        """What a program did of which the growths from first to last were refused."""
        with self.environment(first, last, start_is_counted) as environment:
            return subprocess.run(words, env=environment, capture_output=True, **how)
