/* The functions called from C on the small object of the tests: every answer and every lent byte, on refusals too. */
#include "nelgrauf.h"

#include <stdbool.h>
#include <stdio.h>
#include <string.h>

#define BASE UINT64_C(0x20000000)

static int failed;

static void expect(bool holds, const char *what)
{
    if (!holds) {
        fprintf(stderr, "calls: FAILED: %s\n", what);
        failed++;
    }
}
#define EXPECT(holds) expect((holds), #holds)

/* i386: .text with one relative relocation to _purse, which no section has. */
static const uint8_t object[116] = {
    0x4c, 0x01, 1, 0, 0, 0, 0, 0, 76, 0, 0, 0, 2, 0, 0, 0, 0, 0, 0, 0,
    '.', 't', 'e', 'x', 't', 0, 0, 0, 0, 0, 0, 0, 0, 0, 0, 0, 6, 0, 0, 0, 60, 0, 0, 0,
    66, 0, 0, 0, 0, 0, 0, 0, 1, 0, 0, 0, 0x20, 0, 0x50, 0x60,
    0xe8, 0, 0, 0, 0, 0xc3,
    1, 0, 0, 0, 1, 0, 0, 0, 0x14, 0,
    '_', 't', 'o', 'p', 'u', 'p', 0, 0, 0, 0, 0, 0, 1, 0, 0x20, 0, 2, 0,
    '_', 'p', 'u', 'r', 's', 'e', 0, 0, 0, 0, 0, 0, 0, 0, 0x20, 0, 2, 0,
    4, 0, 0, 0,
};

/* The lent storage, a record longer than is needed. */
static struct storage {
    uint8_t image[4 * NELGRAUF_PAGE];
    uint8_t marks[16];
    struct nelgrauf_section sections[3];
    struct nelgrauf_symbol symbols[2];
    struct nelgrauf_extern externs[2];
    struct nelgrauf_fixup fixups[2];
    struct nelgrauf_skip skips[1];
    struct nelgrauf_counts counts[2];
} s, before;

static const struct nelgrauf_counts want = { 3, 2, 1, 1, 1, 0, 0, 1, 2, 1 };

static uint64_t load_part(size_t file_bytes, uint64_t base, size_t image_bytes, size_t counts_bytes)
{
    return nelgrauf_load(object, file_bytes, base, s.image, image_bytes, s.marks, sizeof s.marks, s.sections, sizeof s.sections,
                         s.symbols, sizeof s.symbols, s.externs, sizeof s.externs, s.fixups, sizeof s.fixups, s.skips, sizeof s.skips,
                         s.counts, counts_bytes);
}

static uint64_t load(uint64_t base, size_t image_bytes, size_t counts_bytes)
{
    return load_part(sizeof object, base, image_bytes, counts_bytes);
}

static void surveys(void)
{
    EXPECT(nelgrauf_survey(object, sizeof object, s.counts, 79) == NELGRAUF_STORAGE);
    EXPECT(nelgrauf_survey(object, 19, s.counts, sizeof s.counts) == NELGRAUF_FILE_SIZE);
    EXPECT(nelgrauf_survey(object, 19, s.counts, 79) == NELGRAUF_FILE_SIZE);
    EXPECT(memcmp(&s, &before, sizeof s) == 0);
    EXPECT(nelgrauf_survey(object, sizeof object, s.counts, sizeof s.counts) == NELGRAUF_DONE);
    EXPECT(memcmp(s.counts, &want, sizeof want) == 0);
    EXPECT(memcmp(&s.counts[1], &before.counts[1], sizeof want) == 0);
}

static void loads(void)
{
    s = before;
    EXPECT(load(BASE, sizeof s.image, 79) == NELGRAUF_STORAGE);
    EXPECT(load(BASE, 0, 79) == NELGRAUF_STORAGE);
    EXPECT(load(BASE + 1, sizeof s.image, 79) == NELGRAUF_BASE);
    EXPECT(load_part(19, BASE + 1, sizeof s.image, 79) == NELGRAUF_BASE);
    EXPECT(load_part(19, BASE, sizeof s.image, 79) == NELGRAUF_FILE_SIZE);
    EXPECT(load(BASE + 1, 0, sizeof s.counts) == NELGRAUF_BASE);
    EXPECT(load(BASE, 3 * NELGRAUF_PAGE - 1, sizeof s.counts) == NELGRAUF_STORAGE);
    EXPECT(memcmp(&s, &before, sizeof s) == 0);

    EXPECT(load(BASE, sizeof s.image, sizeof s.counts) == NELGRAUF_DONE);
    const struct nelgrauf_section text = { BASE, BASE + 16, 60, 66, 5, 20, 5, 1 };
    const struct nelgrauf_section undef = { BASE + 0x1000, BASE + 0x2000, 0, 0, 1, 0, 0, 0 };
    const struct nelgrauf_symbol topup = { BASE, NELGRAUF_TEXT, 76, 6, 0, 0 };
    const struct nelgrauf_extern purse = { BASE + 0x1000, 1, 94, 6 };
    const struct nelgrauf_fixup fixup = { BASE + 1, 32, 4091 };
    const uint8_t slot[4] = { 0, 0x10, 0, 0x20 };
    const uint8_t mark_word[8] = { 7 };
    EXPECT(memcmp(s.counts, &want, sizeof want) == 0);
    EXPECT(memcmp(&s.sections[0], &text, sizeof text) == 0);
    EXPECT(memcmp(&s.sections[1], &undef, sizeof undef) == 0);
    EXPECT(memcmp(&s.symbols[0], &topup, sizeof topup) == 0);
    EXPECT(memcmp(&s.externs[0], &purse, sizeof purse) == 0);
    EXPECT(memcmp(&s.fixups[0], &fixup, sizeof fixup) == 0);
    EXPECT(memcmp(s.image, object + 60, 6) == 0);
    EXPECT(memcmp(s.image + NELGRAUF_PAGE, slot, sizeof slot) == 0);
    EXPECT(memcmp(s.marks, mark_word, sizeof mark_word) == 0);

    /* past the counts nothing has changed */
    EXPECT(memcmp(&s.sections[2], &before.sections[2], sizeof text) == 0);
    EXPECT(memcmp(&s.symbols[1], &before.symbols[1], sizeof topup) == 0);
    EXPECT(memcmp(&s.externs[1], &before.externs[1], sizeof purse) == 0);
    EXPECT(memcmp(&s.fixups[1], &before.fixups[1], sizeof fixup) == 0);
    EXPECT(memcmp(s.skips, before.skips, sizeof s.skips) == 0);
    EXPECT(memcmp(s.image + 3 * NELGRAUF_PAGE, before.image, NELGRAUF_PAGE) == 0);
    EXPECT(memcmp(s.marks + 8, before.marks, 8) == 0);
}

static uint64_t patch(size_t image_bytes, uint64_t number, uint64_t position, struct nelgrauf_progress *p, size_t progress_bytes)
{
    return nelgrauf_patch(BASE, s.image, image_bytes, s.marks, 8, s.fixups, sizeof s.fixups[0], number, position, p, progress_bytes);
}

static void patches(void)
{
    const size_t all = 3 * NELGRAUF_PAGE;
    const uint8_t patched[6] = { 0xe8, 0xfb, 0x0f, 0, 0, 0xc3 };
    struct nelgrauf_progress p = { 77, 88 };
    EXPECT(patch(all, 1, 0, &p, 15) == NELGRAUF_STORAGE);
    EXPECT(patch(all, 1, 2, &p, sizeof p) == NELGRAUF_POSITION);
    EXPECT(patch(all, 1, 2, &p, 15) == NELGRAUF_POSITION);
    EXPECT(patch(all - 1, 1, 2, &p, 15) == NELGRAUF_POSITION);
    EXPECT(patch(0, 1, 0, &p, 15) == NELGRAUF_STORAGE);
    EXPECT(patch(all - 1, 1, 0, &p, sizeof p) == NELGRAUF_STORAGE);
    EXPECT(patch(0, 1, 0, &p, sizeof p) == NELGRAUF_NOT_MAPPED);
    EXPECT(p.position == 77 && p.done == 88);
    EXPECT(memcmp(s.image, object + 60, 6) == 0);
    EXPECT(patch(all, 0, 0, &p, sizeof p) == NELGRAUF_DONE && p.position == 0 && p.done == 0);
    EXPECT(memcmp(s.image, object + 60, 6) == 0);
    EXPECT(patch(all, UINT64_MAX, 0, &p, sizeof p) == NELGRAUF_DONE && p.position == 1 && p.done == 1);
    EXPECT(memcmp(s.image, patched, sizeof patched) == 0);
    EXPECT(patch(all, 1, 1, &p, sizeof p) == NELGRAUF_DONE && p.position == 1 && p.done == 1);
}

static void reads(void)
{
    const size_t all = 3 * NELGRAUF_PAGE;
    uint8_t out[16], kept[16];
    memset(out, 0xee, sizeof out);
    memcpy(kept, out, sizeof out);
    EXPECT(nelgrauf_read(BASE, s.image, all - 1, s.marks, 8, BASE, out, sizeof out) == NELGRAUF_STORAGE);
    EXPECT(nelgrauf_read(BASE, s.image, all, s.marks, 7, BASE, out, sizeof out) == NELGRAUF_STORAGE);
    EXPECT(nelgrauf_read(BASE, s.image, all, s.marks, 8, BASE - 1, out, sizeof out) == NELGRAUF_NOT_MAPPED);
    EXPECT(nelgrauf_read(BASE, s.image, all, s.marks, 8, BASE + all - 15, out, sizeof out) == NELGRAUF_NOT_MAPPED);
    EXPECT(nelgrauf_read(BASE, s.image, all, s.marks, 8, UINT64_MAX, out, sizeof out) == NELGRAUF_NOT_MAPPED);
    EXPECT(memcmp(out, kept, sizeof out) == 0);
    EXPECT(nelgrauf_read(BASE, s.image, all, s.marks, 8, BASE + NELGRAUF_PAGE - 4, out, 8) == NELGRAUF_DONE);
    EXPECT(memcmp(out, s.image + NELGRAUF_PAGE - 4, 8) == 0);
    EXPECT(memcmp(out + 8, kept + 8, 8) == 0);
}

static uint64_t routine(size_t sections_bytes, size_t symbols_bytes, uint64_t address, struct nelgrauf_nearest *n, size_t nearest_bytes)
{
    return nelgrauf_routine(s.sections, sections_bytes, s.symbols, symbols_bytes, address, n, nearest_bytes);
}

/* .text is 16 bytes with _topup at their start; UNDEF's page has no symbol. */
static void routines(void)
{
    const size_t both = 2 * sizeof s.sections[0], one = sizeof s.symbols[0];
    struct nelgrauf_nearest n[2] = { { 77, 88 }, { 66, 55 } };
    EXPECT(routine(both, one, BASE, n, 15) == NELGRAUF_STORAGE);
    EXPECT(routine(0, 0, UINT64_MAX, n, 15) == NELGRAUF_STORAGE);
    EXPECT(routine(both, one, BASE - 1, n, sizeof n) == NELGRAUF_NO_SECTION);
    EXPECT(routine(both, one, BASE + 16, n, sizeof n) == NELGRAUF_NO_SECTION);
    EXPECT(routine(both, one, BASE + 0x2000, n, sizeof n) == NELGRAUF_NO_SECTION);
    EXPECT(routine(both, one, UINT64_MAX, n, sizeof n) == NELGRAUF_NO_SECTION);
    EXPECT(routine(both, one, BASE + 0x1000, n, sizeof n) == NELGRAUF_NO_ROUTINE);
    /* what is left behind the last whole record is none */
    EXPECT(routine(both - 1, one, BASE + 0x1000, n, sizeof n) == NELGRAUF_NO_SECTION);
    EXPECT(routine(both, one - 1, BASE, n, sizeof n) == NELGRAUF_NO_ROUTINE);
    EXPECT(routine(0, one, BASE, n, sizeof n) == NELGRAUF_NO_SECTION);
    EXPECT(n[0].symbol == 77 && n[0].distance == 88);
    EXPECT(routine(both, one, BASE + 15, n, 16) == NELGRAUF_DONE && n[0].symbol == 0 && n[0].distance == 15);
    EXPECT(routine(both, one, BASE, n, sizeof n) == NELGRAUF_DONE && n[0].symbol == 0 && n[0].distance == 0);
    EXPECT(n[1].symbol == 66 && n[1].distance == 55);
}

int main(void)
{
    memset(&before, 0xa5, sizeof before);
    s = before;
    surveys();
    loads();
    patches();
    reads();
    routines();
    return failed != 0;
}
