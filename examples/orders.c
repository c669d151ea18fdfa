/* One failpoint in a C program: FAILPOINTS='save=2*return->off' loses two orders.
 * With a package, docs/how-to/c.md has the paths. In the repository:
 *
 *     cc -pthread -I embedding examples/orders.c embedding/lib/libfailreg.a -o orders */
#include "failreg_point.h"
#include <stdio.h>
#include <stdlib.h>
#include <string.h>

static failreg_program program = FAILREG_PROGRAM;

static const char *save(void)
{
    FAILREG_RETURN(&program, "save", "lost");
    return "saved";
}

int main(void)
{
    const uint8_t seed[32] = { 1 };
    const char *settings = getenv("FAILPOINTS");
    uint16_t points;
    if (failreg_open(&program.node, 0, 1, FAILREG_NO_CAP, seed) != FAILREG_OK)
        return 1;
    if (settings && failreg_load(&program.node, settings, strlen(settings), &points) != FAILREG_OK)
        return 1;
    for (int order = 0; order < 4; order++)
        printf("order %d is %s\n", order, save());
    failreg_close(&program.node);
}
