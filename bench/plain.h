/* A plain C loader, which the library is held against: the same counts, tables and image, for files that the library accepts. */
#ifndef PLAIN_H
#define PLAIN_H

#include "../host/nelgrauf.h"

/* Everything that load fills. */
struct tables {
    uint8_t *image;
    uint64_t *marks;
    struct nelgrauf_section *sections;
    struct nelgrauf_symbol *symbols;
    struct nelgrauf_extern *externs;
    struct nelgrauf_fixup *fixups;
    struct nelgrauf_skip *skips;
};

struct plain;

/* The file as arrays, with its counts; load, which may follow for any base, goes on from there. */
struct plain *plain_survey(const uint8_t *file, struct nelgrauf_counts *counts);
void plain_load(const struct plain *p, uint64_t base, const struct tables *t);
void plain_patch(uint64_t base, uint8_t *image, const struct nelgrauf_fixup *fixups, uint64_t count);
void plain_free(struct plain *p);

/* The nearest symbol of the section that holds the address, or a refusal. */
uint64_t plain_routine(const struct tables *t, const struct nelgrauf_counts *counts, uint64_t address, struct nelgrauf_nearest *nearest);

#endif
