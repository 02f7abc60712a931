/* Calls with one buffer in two places, read only for gcc's warnings (-Wrestrict): the header says `restrict` of every buffer that a call may write, so
 * each line marked `overlap` is warned of. No other is: two buffers that are both only read may be the same. host/test counts both. */
#include "nelgrauf.h"

void survey(char *x)
{
    nelgrauf_survey(x, 1, x, 1); /* overlap */
}

void load(char *x, char *a, char *b, char *c, char *d, char *e, char *f, char *g, char *h)
{
    nelgrauf_load(x, 1, 0, x, 1, b, 1, c, 1, d, 1, e, 1, f, 1, g, 1, h, 1); /* overlap */
    nelgrauf_load(x, 1, 0, a, 1, x, 1, c, 1, d, 1, e, 1, f, 1, g, 1, h, 1); /* overlap */
    nelgrauf_load(x, 1, 0, a, 1, b, 1, x, 1, d, 1, e, 1, f, 1, g, 1, h, 1); /* overlap */
    nelgrauf_load(x, 1, 0, a, 1, b, 1, c, 1, x, 1, e, 1, f, 1, g, 1, h, 1); /* overlap */
    nelgrauf_load(x, 1, 0, a, 1, b, 1, c, 1, d, 1, x, 1, f, 1, g, 1, h, 1); /* overlap */
    nelgrauf_load(x, 1, 0, a, 1, b, 1, c, 1, d, 1, e, 1, x, 1, g, 1, h, 1); /* overlap */
    nelgrauf_load(x, 1, 0, a, 1, b, 1, c, 1, d, 1, e, 1, f, 1, x, 1, h, 1); /* overlap */
    nelgrauf_load(x, 1, 0, a, 1, b, 1, c, 1, d, 1, e, 1, f, 1, g, 1, x, 1); /* overlap */
    nelgrauf_load(x, 1, 0, a, 1, b, 1, c, 1, d, 1, e, 1, f, 1, g, 1, h, 1);
}

void patch(char *x, char *a, char *b, char *c)
{
    nelgrauf_patch(0, x, 1, x, 1, b, 1, 1, 0, c, 1); /* overlap */
    nelgrauf_patch(0, x, 1, a, 1, x, 1, 1, 0, c, 1); /* overlap */
    nelgrauf_patch(0, a, 1, x, 1, b, 1, 1, 0, x, 1); /* overlap */
    nelgrauf_patch(0, a, 1, b, 1, x, 1, 1, 0, x, 1); /* overlap */
    nelgrauf_patch(0, a, 1, x, 1, x, 1, 1, 0, c, 1);
}

void read_out(char *x, char *a, char *b)
{
    nelgrauf_read(0, x, 1, a, 1, 0, x, 1); /* overlap */
    nelgrauf_read(0, a, 1, x, 1, 0, x, 1); /* overlap */
    nelgrauf_read(0, x, 1, x, 1, 0, b, 1);
}

void routine(char *x, char *a, char *b)
{
    nelgrauf_routine(x, 1, a, 1, 0, x, 1); /* overlap */
    nelgrauf_routine(a, 1, x, 1, 0, x, 1); /* overlap */
    nelgrauf_routine(x, 1, x, 1, 0, b, 1);
}
