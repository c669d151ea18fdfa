/* A node that survives its process: the file JOURNAL has a line for each call that it accepted,
 * from which the next process resumes, however this one ended.
 *
 *     cc -pthread -I embedding embedding/c/part.c embedding/lib/libfailreg.a -o part
 *     ./part JOURNAL ORDERS
 *
 * saves this many orders. The point `save` loses three, in whichever process and over all runs. */
#define _DEFAULT_SOURCE
#include "failreg_point.h"

#include <fcntl.h>
#include <stdio.h>
#include <stdlib.h>
#include <string.h>
#include <sys/file.h>
#include <unistd.h>

#define TEXT(s) (s), sizeof(s) - 1

static failreg_program program = FAILREG_PROGRAM;
static int part;
/* How many calls are in the journal. */
static uint64_t recorded;

static void stop(const char *why)
{
    fprintf(stderr, "part: %s\n", why);
    exit(1);
}

static void must(uint32_t status)
{
    if (status != FAILREG_OK)
        stop(failreg_strerror(status));
}

/* Returns the bytes of failreg_fetch, with a newline after them. The caller frees it. */
static char *fetched(size_t *length)
{
    *length = failreg_fetch(&program.node, "", 0);
    char *bytes = malloc(*length + 1);
    if (bytes == NULL)
        stop("out of memory");
    failreg_fetch(&program.node, bytes, *length);
    bytes[*length] = '\n';
    return bytes;
}

/* One write: a process that is killed leaves whole lines, and at most one incomplete line. If the
 * write fails, the call's result becomes visible to nobody, and no other call is made. */
static void write_lines(const char *lines, size_t length)
{
    if (write(part, lines, length) != (ssize_t)length)
        stop("the part can't be written");
}

/* Writes the lines of the newest calls, before their results are visible to anybody. */
static bool record(failreg *node)
{
    size_t length;
    must(failreg_part_lines(node, recorded));
    char *lines = fetched(&length);
    write_lines(lines, length);
    free(lines);
    must(failreg_calls(node, &recorded));
    must(failreg_forget(node));
    return true;
}

/* Opens the journal, and repeats its calls. */
static void go_on_from(const char *path)
{
    char *line = NULL;
    size_t room = 0, of_head;
    part = open(path, O_RDWR | O_CREAT | O_APPEND | O_CLOEXEC, 0666);
    if (part < 0 || flock(part, LOCK_EX | LOCK_NB) != 0)
        stop("the part can't be opened, or another process has it");
    FILE *lines = fdopen(dup(part), "r");
    if (lines == NULL)
        stop("the part can't be read");
    must(failreg_part_head(&program.node, TEXT("")));
    char *head = fetched(&of_head);
    of_head++;
    ssize_t length = getline(&line, &room, lines);
    off_t whole = length;
    if (length <= 0 || ((size_t)length < of_head && memcmp(line, head, (size_t)length) == 0)) {
        if (ftruncate(part, 0) != 0)
            stop("the part can't be begun");
        write_lines(head, of_head);
    } else if ((size_t)length != of_head || memcmp(line, head, of_head) != 0) {
        stop("the file isn't the part of this node");
    } else {
        /* The result of a call with an incomplete line was never visible. */
        while ((length = getline(&line, &room, lines)) > 0 && line[length - 1] == '\n') {
            must(failreg_repeat(&program.node, line, (size_t)length - 1));
            must(failreg_forget(&program.node));
            whole += length;
        }
        if (ferror(lines) || ftruncate(part, whole) != 0)
            stop("the part can't be read, or not be cut");
    }
    fclose(lines);
    free(head);
    free(line);
}

static const char *save(void)
{
    FAILREG_RETURN(&program, "save", "lost");
    return "saved";
}

int main(int count, char **words)
{
    static const uint8_t seed[32] = { 1 };
    failreg_stamp stamp;
    if (count != 3)
        stop("it takes the path of a part, and a number of orders");
    must(failreg_open(&program.node, 0, 1, FAILREG_NO_CAP, seed));
    go_on_from(words[1]);
    must(failreg_calls(&program.node, &recorded));
    if (recorded == 0) {
        must(failreg_set(&program.node, TEXT("save"), TEXT("3*return->off"), &stamp));
        record(&program.node);
    }
    program.record = record;
    for (long order = 0; order < atol(words[2]); order++)
        puts(save());
    failreg_close(&program.node);
    return 0;
}
