/* How many bytes of stack survey, load and a full patch take below their caller: each runs on a stack filled with a pattern, and the lowest byte that changed
 * tells. Twice, with two patterns, so that no byte hides by having the pattern's value.
 *
 *   stack FILE...
 *
 * A line an object. */
#define _XOPEN_SOURCE 700
#include "../host/nelgrauf.h"

#include <inttypes.h>
#include <stdio.h>
#include <stdlib.h>
#include <string.h>
#include <ucontext.h>

#define BASE UINT64_C(0x20000000)
#define ROOM ((size_t)1 << 20)

enum job { SURVEY, LOAD, PATCH, JOBS };

static uint8_t stack[ROOM], *file, *storage[7];
static size_t size;
static struct nelgrauf_counts counts;
static uint64_t lengths[7];

static enum job job;
static uint64_t code;
static const uint8_t *caller;
static ucontext_t here, there;

static void *lend(size_t bytes)
{
    void *at = calloc(bytes + 1, 1);
    if (at == NULL)
        exit(1);
    return at;
}

static uint64_t load(void)
{
    struct nelgrauf_counts c;
    return nelgrauf_load(file, size, BASE, storage[0], lengths[0], storage[1], lengths[1], (void *)storage[2], lengths[2], (void *)storage[3], lengths[3],
                         (void *)storage[4], lengths[4], (void *)storage[5], lengths[5], (void *)storage[6], lengths[6], &c, sizeof c);
}

static uint64_t patch(void)
{
    struct nelgrauf_progress p;
    return nelgrauf_patch(BASE, storage[0], lengths[0], storage[1], lengths[1], (void *)storage[5], lengths[5], UINT64_MAX, 0, &p, sizeof p);
}

static void call(void)
{
    caller = __builtin_frame_address(0);
    code = job == SURVEY ? nelgrauf_survey(file, size, &counts, sizeof counts) : job == LOAD ? load() : patch();
}

/* Bytes between the caller's frame and the lowest that the job changed. */
static size_t depth(int pattern)
{
    memset(stack, pattern, ROOM);
    getcontext(&there);
    there.uc_stack.ss_sp = stack;
    there.uc_stack.ss_size = ROOM;
    there.uc_link = &here;
    makecontext(&there, call, 0);
    swapcontext(&here, &there);
    size_t low = 0;
    while (stack[low] == pattern)
        low++;
    return (size_t)(caller - (stack + low));
}

static void lend_storage(void)
{
    const uint64_t bytes[7] = {
        counts.pages * NELGRAUF_PAGE,
        NELGRAUF_MARK_BYTES(counts.pages),
        counts.sections * sizeof(struct nelgrauf_section),
        counts.symbols * sizeof(struct nelgrauf_symbol),
        counts.externs * sizeof(struct nelgrauf_extern),
        counts.fixups * sizeof(struct nelgrauf_fixup),
        counts.skips * sizeof(struct nelgrauf_skip),
    };
    for (int i = 0; i < 7; i++) {
        lengths[i] = bytes[i];
        storage[i] = lend(bytes[i]);
    }
}

static void measure(const char *path)
{
    FILE *in = fopen(path, "rb");
    if (in == NULL)
        exit(1);
    size = fread(file, 1, NELGRAUF_MAX_FILE + 1, in);
    fclose(in);
    size_t most[JOBS] = { 0 };
    for (job = SURVEY; job < JOBS; job++) {
        for (int pattern = 0x5A; pattern <= 0xA5; pattern += 0x4B) {
            size_t bytes = depth(pattern);
            most[job] = bytes > most[job] ? bytes : most[job];
        }
        if (code != 0)
            break;
        if (job == SURVEY)
            lend_storage();
    }
    printf("survey %zu load %zu patch %zu  %s\n", most[SURVEY], most[LOAD], most[PATCH], path);
    for (int i = 0; i < 7; i++) {
        free(storage[i]);
        storage[i] = NULL;
    }
}

int main(int count, char **words)
{
    file = lend(NELGRAUF_MAX_FILE + 1);
    if (count < 2) {
        fputs("use: stack FILE...\n", stderr);
        return 2;
    }
    for (int i = 1; i < count; i++)
        measure(words[i]);
    free(file);
    return 0;
}
