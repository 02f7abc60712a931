/* The host's answers on the objects of test_objects, behind a line of `case` and the label: of each that has the action `routine`, those routines, and
 * of each that has the action `lines`, the lines of a load at 0x20000000. */
#define main station_main
#include "station.c"
#undef main
#include "stream.h"

static void print_routine(const struct module *m, uint64_t address)
{
    struct nelgrauf_nearest nearest;
    uint64_t code = routine(m, address, &nearest);
    printf("routine 0x%" PRIx64, address);
    if (code != 0)
        printf(" refused %" PRIu64 "\n", code);
    else
        printf(" symbol %" PRIu64 " distance %" PRIu64 "\n", nearest.symbol, nearest.distance);
}

static void ask_routines(const struct one_case *c)
{
    struct module m = { .file = c->object };
    uint64_t code = load(&m, c->bases[0]);
    for (size_t i = 0; i < c->routines_count; i++)
        if (code == 0)
            print_routine(&m, c->routines[i]);
    m.file.at = NULL;
    give_back(&m);
}

static void print_lines(const struct one_case *c)
{
    const struct options o = { .portion = 1, .base = 0x20000000 };
    struct module m = { .file = c->object };
    if (run(&m, &o) == NOT_READ_BACK)
        puts("not read back");
    m.file.at = NULL;
    give_back(&m);
}

int main(void)
{
    struct stream in = { .in = stdin };
    struct one_case c;
    while (next_case(&in, &c)) {
        printf("case %s\n", c.label);
        if (c.routines_count != 0)
            ask_routines(&c);
        if (c.has_lines)
            print_lines(&c);
        free(c.object.at);
    }
    free(in.line);
    return fflush(stdout) == 0 ? DONE : BAD_USE;
}
