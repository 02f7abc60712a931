/* Times survey, load and a full patch of each object beside a loader in plain C (plain.c), which must leave the same bytes and find the same routines, and
 * beside the copying of as many bytes as file and image have.
 *
 *   bench N FILE...
 *
 * A line an object: the best of N times each, in nanoseconds; then their sums. An object gets no new round once it has had two seconds. */
#define _POSIX_C_SOURCE 200809L
#include "plain.h"

#include <inttypes.h>
#include <stdio.h>
#include <stdlib.h>
#include <string.h>
#include <time.h>

#define BASE UINT64_C(0x20000000)
#define SECOND UINT64_C(1000000000)

enum job { SURVEY, LOAD, PATCH, PLAIN, COPY, JOBS };
static const char *const words_of_jobs[JOBS] = { "survey", "load", "patch", "plain", "copy" };

/* What both loaders are given: the file, its counts, and storage of each. */
struct object {
    const char *path;
    uint8_t *file;
    size_t size;
    struct nelgrauf_counts counts;
    struct tables ours, plain;
    uint8_t *copy;
};

static void die(const char *path, const char *why)
{
    fprintf(stderr, "bench: %s: %s\n", path, why);
    exit(1);
}

static uint64_t now(void)
{
    struct timespec t;
    clock_gettime(CLOCK_MONOTONIC, &t);
    return (uint64_t)t.tv_sec * SECOND + (uint64_t)t.tv_nsec;
}

/* ---- storage */

/* Never null, and every byte `pattern`, so that a byte that is not written shows. */
static void *lend(uint64_t size, int pattern)
{
    void *at = malloc((size_t)size + 1);
    if (at == NULL)
        die("storage", "no memory");
    return memset(at, pattern, (size_t)size);
}

static struct tables lend_tables(const struct nelgrauf_counts *c, int pattern)
{
    return (struct tables){
        .image = lend(c->pages * NELGRAUF_PAGE, pattern),
        .marks = lend(NELGRAUF_MARK_BYTES(c->pages), pattern),
        .sections = lend(c->sections * sizeof(struct nelgrauf_section), pattern),
        .symbols = lend(c->symbols * sizeof(struct nelgrauf_symbol), pattern),
        .externs = lend(c->externs * sizeof(struct nelgrauf_extern), pattern),
        .fixups = lend(c->fixups * sizeof(struct nelgrauf_fixup), pattern),
        .skips = lend(c->skips * sizeof(struct nelgrauf_skip), pattern),
    };
}

static void give_back(struct tables *t)
{
    free(t->image);
    free(t->marks);
    free(t->sections);
    free(t->symbols);
    free(t->externs);
    free(t->fixups);
    free(t->skips);
}

static void read_file(struct object *o)
{
    FILE *in = fopen(o->path, "rb");
    if (in == NULL)
        die(o->path, "cannot be read");
    o->file = lend(NELGRAUF_MAX_FILE + 1, 0);
    o->size = fread(o->file, 1, NELGRAUF_MAX_FILE + 1, in);
    fclose(in);
}

/* ---- the jobs, each of which answers 0 or a refusal */

static uint64_t load(struct object *o)
{
    struct nelgrauf_counts *c = &o->counts;
    const struct tables *t = &o->ours;
    return nelgrauf_load(o->file, o->size, BASE, t->image, c->pages * NELGRAUF_PAGE, t->marks, NELGRAUF_MARK_BYTES(c->pages),
                         t->sections, c->sections * sizeof *t->sections, t->symbols, c->symbols * sizeof *t->symbols,
                         t->externs, c->externs * sizeof *t->externs, t->fixups, c->fixups * sizeof *t->fixups,
                         t->skips, c->skips * sizeof *t->skips, c, sizeof *c);
}

static uint64_t patch(struct object *o)
{
    struct nelgrauf_progress progress;
    return nelgrauf_patch(BASE, o->ours.image, o->counts.pages * NELGRAUF_PAGE, o->ours.marks, NELGRAUF_MARK_BYTES(o->counts.pages),
                          o->ours.fixups, o->counts.fixups * sizeof *o->ours.fixups, UINT64_MAX, 0, &progress, sizeof progress);
}

static uint64_t plain(struct object *o)
{
    struct nelgrauf_counts c;
    struct plain *p = plain_survey(o->file, &c);
    if (memcmp(&c, &o->counts, sizeof c) != 0)
        die(o->path, "plain C has other counts");
    plain_load(p, BASE, &o->plain);
    plain_patch(BASE, o->plain.image, o->plain.fixups, c.fixups);
    plain_free(p);
    return 0;
}

static uint64_t copy(struct object *o)
{
    memcpy(o->copy, o->file, o->size);
    memcpy(o->copy + o->size, o->ours.image, o->counts.pages * NELGRAUF_PAGE);
    return 0;
}

static uint64_t run(enum job job, struct object *o)
{
    switch (job) {
    case SURVEY:
        return nelgrauf_survey(o->file, o->size, &o->counts, sizeof o->counts);
    case LOAD:
        return load(o);
    case PATCH:
        return patch(o);
    case PLAIN:
        return plain(o);
    default:
        return copy(o);
    }
}

/* ---- one object */

static void compare(const struct object *o)
{
    const struct nelgrauf_counts *c = &o->counts;
    const struct tables *x = &o->ours, *y = &o->plain;
    if (memcmp(x->image, y->image, c->pages * NELGRAUF_PAGE) != 0 || memcmp(x->marks, y->marks, NELGRAUF_MARK_BYTES(c->pages)) != 0)
        die(o->path, "plain C leaves another image");
    if (memcmp(x->sections, y->sections, c->sections * sizeof *x->sections) != 0 || memcmp(x->symbols, y->symbols, c->symbols * sizeof *x->symbols) != 0 ||
        memcmp(x->externs, y->externs, c->externs * sizeof *x->externs) != 0)
        die(o->path, "plain C leaves other tables");
    if (memcmp(x->fixups, y->fixups, c->fixups * sizeof *x->fixups) != 0 || memcmp(x->skips, y->skips, c->skips * sizeof *x->skips) != 0)
        die(o->path, "plain C leaves other lists");
}

static void compare_routine(const struct object *o, uint64_t address)
{
    const struct nelgrauf_counts *c = &o->counts;
    struct nelgrauf_nearest x = { 0, 0 }, y = { 0, 0 };
    uint64_t code = nelgrauf_routine(o->ours.sections, c->sections * sizeof *o->ours.sections, o->ours.symbols, c->symbols * sizeof *o->ours.symbols,
                                     address, &x, sizeof x);
    if (code != plain_routine(&o->plain, c, address, &y) || x.symbol != y.symbol || x.distance != y.distance)
        die(o->path, "plain C finds another routine");
}

/* At the bounds of every section, and at and beside up to 256 of the symbols. */
static void compare_routines(const struct object *o)
{
    for (uint64_t i = 0; i < o->counts.sections; i++) {
        compare_routine(o, o->ours.sections[i].start - 1);
        compare_routine(o, o->ours.sections[i].start);
        compare_routine(o, o->ours.sections[i].end - 1);
        compare_routine(o, o->ours.sections[i].end);
    }
    for (uint64_t i = 0; i < o->counts.symbols; i += o->counts.symbols / 256 + 1)
        for (uint64_t near = 0; near < 3; near++)
            compare_routine(o, o->ours.symbols[i].address + near - 1);
}

static uint64_t timed(enum job job, struct object *o, uint64_t best[JOBS])
{
    uint64_t from = now(), code = run(job, o), took = now() - from;
    best[job] = took < best[job] ? took : best[job];
    return code;
}

static void time_jobs(enum job first, struct object *o, uint64_t best[JOBS])
{
    for (int job = first; job < JOBS; job++)
        if (timed((enum job)job, o, best) != 0)
            die(o->path, "refused behind its survey");
}

static void print_times(const uint64_t times[JOBS])
{
    for (int j = 0; j < JOBS; j++)
        printf(" %s %" PRIu64, words_of_jobs[j], times[j]);
}

/* In one round each call is made once: under callgrind, its instructions. */
static void time_object(const char *path, uint64_t rounds, uint64_t sum[JOBS])
{
    struct object o = { .path = path };
    const struct nelgrauf_counts *c = &o.counts;
    uint64_t best[JOBS] = { UINT64_MAX, UINT64_MAX, UINT64_MAX, UINT64_MAX, UINT64_MAX }, start = now();
    read_file(&o);
    if (timed(SURVEY, &o, best) != 0) {
        fprintf(stderr, "bench: %s is refused and left out\n", path);
        free(o.file);
        return;
    }
    o.ours = lend_tables(c, 0xA5);
    o.plain = lend_tables(c, 0x5A);
    o.copy = lend(o.size + c->pages * NELGRAUF_PAGE, 0);
    time_jobs(LOAD, &o, best);
    for (uint64_t i = 1; i < rounds && now() - start < 2 * SECOND; i++)
        time_jobs(SURVEY, &o, best);
    compare(&o);
    compare_routines(&o);
    printf("%zu bytes %" PRIu64 " pages %" PRIu64 " relocations:", o.size, c->pages, c->relocations);
    print_times(best);
    printf("  %s\n", path);
    for (int j = 0; j < JOBS; j++)
        sum[j] += best[j];
    give_back(&o.ours);
    give_back(&o.plain);
    free(o.file);
    free(o.copy);
}

int main(int count, char **words)
{
    uint64_t rounds = count > 2 ? strtoull(words[1], NULL, 10) : 0, sum[JOBS] = { 0 };
    if (rounds == 0) {
        fputs("use: bench N FILE...\n", stderr);
        return 2;
    }
    for (int i = 2; i < count; i++)
        time_object(words[i], rounds, sum);
    printf("sum");
    print_times(sum);
    putchar('\n');
    return 0;
}
