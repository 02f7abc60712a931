/* A COFF loader as one writes it in C for files that one trusts. Nothing is checked. Sections and symbols are taken apart once, extern names are sorted by
 * the C library, and a symbol's target is found once, however many relocations have it. docs/HOST.md says what the tables hold. */
#define _POSIX_C_SOURCE 200809L /* for strnlen */
#include "plain.h"

#include <stdbool.h>
#include <stdlib.h>
#include <string.h>

enum { PAGE = NELGRAUF_PAGE };
enum { EXTERNAL = 2, STATIC = 3, LABEL = 6, FILE_CLASS = 103, SECTION = 104, WEAK = 105 };
enum place { IN_SECTION, UNDEFINED, COMMON, ABSOLUTE, ELSEWHERE };

struct name {
    const uint8_t *at;
    uint32_t length;
    uint32_t symbol; /* that has it */
};

struct section {
    struct name name;
    uint32_t flags;
    uint32_t file_start, file_end; /* 0 if uninitialised */
    uint32_t start, length;        /* in the image, if it is loaded */
    uint32_t record;               /* in the section table, if it is loaded */
    const uint8_t *relocations;
    uint32_t count;
};

struct symbol {
    struct name name;
    uint32_t value;
    uint32_t target; /* offset in the image, if there is no skip */
    int16_t section;
    uint8_t kind, place, skip;
    bool own;   /* not an auxiliary record */
    bool named; /* by a relocation */
};

/* How a relocation's type goes into its place; an unknown type has no bits. */
struct type {
    uint8_t bits;
    bool relative;
    int8_t addend;
};

struct plain {
    const uint8_t *file, *strings;
    const struct type *types;
    struct section *sections;
    struct symbol *symbols;
    struct name *externs;
    uint32_t undef; /* UNDEF's start in the image */
    struct nelgrauf_counts counts;
};

enum { TYPES = 32 };
static const struct type i386[TYPES] = { [6] = { 32, false, 0 }, [7] = { 32, false, 0 }, [0xB] = { 32, false, 0 }, [0x14] = { 32, true, -4 } };
static const struct type x64[TYPES] = {
    [1] = { 64, false, 0 }, [2] = { 32, false, 0 }, [3] = { 32, false, 0 }, [4] = { 32, true, -4 }, [5] = { 32, true, -5 },
    [6] = { 32, true, -6 }, [7] = { 32, true, -7 }, [8] = { 32, true, -8 }, [9] = { 32, true, -9 }, [0xB] = { 32, false, 0 },
};

static uint16_t word(const uint8_t *at)
{
    uint16_t v;
    memcpy(&v, at, sizeof v);
    return v;
}

static uint32_t dword(const uint8_t *at)
{
    uint32_t v;
    memcpy(&v, at, sizeof v);
    return v;
}

static uint32_t round_up(uint32_t n, uint32_t to)
{
    return (n + to - 1) & ~(to - 1);
}

/* ---- names */

static struct name short_name(const uint8_t *at)
{
    return (struct name){ .at = at, .length = (uint32_t)strnlen((const char *)at, 8) };
}

/* `before` was found last. If this one begins within it, it ends there too. */
static struct name long_name(const uint8_t *at, struct name before)
{
    if (before.at <= at && at < before.at + before.length)
        return (struct name){ .at = at, .length = (uint32_t)(before.at + before.length - at) };
    return (struct name){ .at = at, .length = (uint32_t)strlen((const char *)at) };
}

static int order(const void *a, const void *b)
{
    const struct name *x = a, *y = b;
    int bytes = memcmp(x->at, y->at, x->length < y->length ? x->length : y->length);
    return bytes != 0 ? bytes : (x->length > y->length) - (x->length < y->length);
}

static int order_with_symbols(const void *a, const void *b)
{
    const struct name *x = a, *y = b;
    int names = order(x, y);
    return names != 0 ? names : (x->symbol > y->symbol) - (x->symbol < y->symbol);
}

static bool same(struct name x, struct name y)
{
    return x.length == y.length && memcmp(x.at, y.at, x.length) == 0;
}

/* ---- sections */

static bool is_loaded(const struct section *s)
{
    return (s->flags & 0x02000800) == 0;
}

static struct name section_name(const struct plain *p, const uint8_t *record)
{
    if (record[0] != '/')
        return short_name(record);
    uint32_t offset = 0;
    for (int i = 1; i < 8 && record[i] != 0; i++)
        offset = offset * 10 + record[i] - '0';
    return long_name(p->strings + offset, (struct name){ .at = p->strings });
}

static void read_section(const struct plain *p, const uint8_t *record, struct section *s)
{
    uint32_t size = dword(record + 16), align = 16;
    s->name = section_name(p, record);
    s->flags = dword(record + 36);
    if ((s->flags & 0x80) == 0) {
        s->file_start = dword(record + 20);
        s->file_end = s->file_start + size;
    }
    uint32_t code = s->flags >> 20 & 15;
    if (1 <= code && code <= 14)
        align = 1u << (code - 1);
    s->length = round_up(size, align);
    s->relocations = p->file + dword(record + 24);
    s->count = word(record + 32);
    if ((s->flags & 0x01000000) != 0 && s->count == 65535) {
        s->count = dword(s->relocations) - 1;
        s->relocations += 10;
    }
}

static void read_sections(struct plain *p)
{
    struct nelgrauf_counts *c = &p->counts;
    const uint8_t *records = p->file + 20 + word(p->file + 16);
    uint32_t at = 0;
    for (uint32_t i = 0; i < c->file_sections; i++) {
        struct section *s = &p->sections[i];
        read_section(p, records + 40 * i, s);
        c->relocations += s->count;
        if (is_loaded(s)) {
            s->start = at;
            s->record = (uint32_t)c->sections++;
            at = round_up(at + s->length, PAGE);
        }
    }
    p->undef = at;
    c->sections++;
    c->pages = at / PAGE + 2;
}

/* ---- symbols */

static uint8_t kind_of(const uint8_t *record)
{
    uint8_t by_type = (word(record + 14) & 0x30) == 0x20 ? NELGRAUF_TEXT : NELGRAUF_DATA;
    switch (record[16]) {
    case EXTERNAL:
    case WEAK:
        return by_type;
    case STATIC:
        return dword(record + 8) == 0 && record[17] != 0 ? NELGRAUF_SECTION : by_type;
    case SECTION:
        return NELGRAUF_SECTION;
    case FILE_CLASS:
        return NELGRAUF_FILE;
    case LABEL:
        return NELGRAUF_LABEL;
    default:
        return NELGRAUF_UNKNOWN;
    }
}

static uint8_t place_of(const uint8_t *record)
{
    int16_t section = (int16_t)word(record + 12);
    if (section > 0)
        return IN_SECTION;
    if (section == 0)
        return record[16] == EXTERNAL && dword(record + 8) == 0 ? UNDEFINED : COMMON;
    return section == -1 ? ABSOLUTE : ELSEWHERE;
}

static bool is_listed(const struct plain *p, const struct symbol *s)
{
    return s->own && s->place == IN_SECTION && is_loaded(&p->sections[s->section - 1]);
}

static void read_symbols(struct plain *p)
{
    const uint8_t *records = p->file + dword(p->file + 8);
    struct name before = { .at = p->strings };
    for (uint32_t j = 0; j < p->counts.symbol_records; j += 1 + records[18 * j + 17]) {
        const uint8_t *record = records + 18 * j;
        struct symbol *s = &p->symbols[j];
        bool is_long = dword(record) == 0;
        s->name = is_long ? long_name(p->strings + dword(record + 4), before) : short_name(record);
        s->name.symbol = j;
        if (is_long)
            before = s->name;
        uint8_t class = record[16];
        s->value = class == EXTERNAL || class == STATIC || class == LABEL || class == WEAK ? dword(record + 8) : 0;
        s->section = (int16_t)word(record + 12);
        s->kind = kind_of(record);
        s->place = place_of(record);
        s->own = true;
        p->counts.symbols += is_listed(p, s);
    }
}

/* ---- extern names and targets */

static void mark_named(struct plain *p)
{
    for (uint32_t i = 0; i < p->counts.file_sections; i++) {
        const struct section *s = &p->sections[i];
        for (const uint8_t *r = s->relocations, *end = r + 10 * s->count; r < end; r += 10)
            if (dword(r + 4) < p->counts.symbol_records)
                p->symbols[dword(r + 4)].named = true;
    }
}

static bool is_a_section_of_the_file(const struct plain *p, struct name name)
{
    for (uint32_t i = 0; i < p->counts.file_sections; i++)
        if (same(p->sections[i].name, name))
            return true;
    return false;
}

static bool puts_a_name(const struct plain *p, const struct symbol *s)
{
    bool missing = s->place == UNDEFINED || s->place == COMMON;
    switch (s->kind) {
    case NELGRAUF_TEXT:
    case NELGRAUF_DATA:
        return missing || s->place == ELSEWHERE;
    case NELGRAUF_SECTION:
        return missing && !is_a_section_of_the_file(p, s->name);
    default:
        return s->kind == NELGRAUF_UNKNOWN && s->place == COMMON;
    }
}

/* Sorted, and of those alike the lowest symbol's. */
static void collect_externs(struct plain *p)
{
    uint32_t n = 0, kept = 0;
    for (uint32_t j = 0; j < p->counts.symbol_records; j++)
        if (p->symbols[j].named && p->symbols[j].own && puts_a_name(p, &p->symbols[j]))
            p->externs[n++] = p->symbols[j].name;
    qsort(p->externs, n, sizeof *p->externs, order_with_symbols);
    for (uint32_t i = 0; i < n; i++)
        if (kept == 0 || !same(p->externs[kept - 1], p->externs[i]))
            p->externs[kept++] = p->externs[i];
    p->counts.externs = kept;
}

/* Whether a record of the section table has the name; its start. */
static bool start_by_name(const struct plain *p, struct name name, uint32_t *start)
{
    static const struct name undef = { .at = (const uint8_t *)"UNDEF", .length = 5 };
    for (uint32_t i = 0; i < p->counts.file_sections; i++)
        if (is_loaded(&p->sections[i]) && same(p->sections[i].name, name)) {
            *start = p->sections[i].start;
            return true;
        }
    *start = p->undef;
    return same(undef, name);
}

static void find_target(const struct plain *p, struct symbol *s)
{
    if (s->place == IN_SECTION && s->kind != NELGRAUF_UNKNOWN) {
        const struct section *home = &p->sections[s->section - 1];
        if (is_loaded(home))
            s->target = home->start;
        else
            s->skip = NELGRAUF_NO_HOME;
        return;
    }
    if (s->kind == NELGRAUF_SECTION && start_by_name(p, s->name, &s->target))
        return;
    const struct name *slot = bsearch(&s->name, p->externs, p->counts.externs, sizeof *slot, order);
    if (slot == NULL)
        s->skip = NELGRAUF_NO_SLOT;
    else
        s->target = p->undef + 4 * (uint32_t)(slot - p->externs);
}

/* ---- relocations */

/* 0 if it is a fixup, else why it is skipped. */
static uint64_t skip_of(const struct plain *p, const uint8_t *relocation)
{
    uint32_t j = dword(relocation + 4);
    uint16_t type = word(relocation + 8);
    if (j >= p->counts.symbol_records)
        return NELGRAUF_NO_SYMBOL;
    if (p->symbols[j].skip != 0)
        return p->symbols[j].skip;
    return type < TYPES && p->types[type].bits != 0 ? 0 : NELGRAUF_UNKNOWN_TYPE;
}

static void count_relocations(struct plain *p)
{
    struct nelgrauf_counts *c = &p->counts;
    for (uint32_t i = 0; i < c->file_sections; i++) {
        const struct section *s = &p->sections[i];
        if (!is_loaded(s)) {
            c->passed += s->count;
            continue;
        }
        for (uint32_t k = 0; k < s->count; k++)
            c->skips += skip_of(p, s->relocations + 10 * k) != 0;
    }
    c->fixups = c->relocations - c->passed - c->skips;
}

static struct nelgrauf_fixup fixup_of(const struct plain *p, uint64_t base, const struct section *s, const uint8_t *relocation)
{
    const struct type *type = &p->types[word(relocation + 8)];
    uint64_t place = base + s->start + dword(relocation);
    uint64_t value = base + p->symbols[dword(relocation + 4)].target + (uint64_t)(int64_t)type->addend;
    return (struct nelgrauf_fixup){ place, type->bits, type->relative ? value - place : value };
}

static void write_relocations(const struct plain *p, uint64_t base, struct nelgrauf_fixup *fixup, struct nelgrauf_skip *skip)
{
    for (uint32_t i = 0; i < p->counts.file_sections; i++) {
        const struct section *s = &p->sections[i];
        if (!is_loaded(s))
            continue;
        for (uint32_t k = 0; k < s->count; k++) {
            const uint8_t *relocation = s->relocations + 10 * k;
            uint64_t reason = skip_of(p, relocation);
            if (reason == 0)
                *fixup++ = fixup_of(p, base, s, relocation);
            else
                *skip++ = (struct nelgrauf_skip){ i + 1, k, reason };
        }
    }
}

/* ---- tables and image */

static uint64_t in_file(const struct plain *p, struct name name)
{
    return (uint64_t)(name.at - p->file);
}

static void write_sections(const struct plain *p, uint64_t base, uint8_t *image, struct nelgrauf_section *record)
{
    for (uint32_t i = 0; i < p->counts.file_sections; i++) {
        const struct section *s = &p->sections[i];
        if (!is_loaded(s))
            continue;
        uint32_t size = s->file_end - s->file_start;
        memcpy(image + s->start, p->file + s->file_start, size);
        memset(image + s->start + size, 0, round_up(s->length, PAGE) - size);
        uint64_t permissions = (s->flags >> 30 & 1) * NELGRAUF_READ + (s->flags >> 31) * NELGRAUF_WRITE + (s->flags >> 29 & 1) * NELGRAUF_EXECUTE;
        *record++ = (struct nelgrauf_section){ base + s->start, base + s->start + s->length, s->file_start, s->file_end,
                                               permissions, in_file(p, s->name), s->name.length, i + 1 };
    }
    uint64_t undef = base + p->undef;
    memset(image + p->undef, 0, 2 * PAGE);
    *record = (struct nelgrauf_section){ .start = undef, .end = undef + PAGE, .permissions = NELGRAUF_READ };
}

static void write_symbols(const struct plain *p, uint64_t base, struct nelgrauf_symbol *record)
{
    for (uint32_t j = 0; j < p->counts.symbol_records; j++) {
        const struct symbol *s = &p->symbols[j];
        if (!is_listed(p, s))
            continue;
        const struct section *home = &p->sections[s->section - 1];
        *record++ = (struct nelgrauf_symbol){ base + home->start + s->value, s->kind, in_file(p, s->name), s->name.length, j, home->record };
    }
}

static void write_externs(const struct plain *p, uint64_t base, uint8_t *image, struct nelgrauf_extern *records)
{
    for (uint32_t e = 0; e < p->counts.externs; e++) {
        uint32_t slot = p->undef + 4 * e, address = (uint32_t)base + slot;
        memcpy(image + slot, &address, sizeof address);
        records[e] = (struct nelgrauf_extern){ address, p->externs[e].symbol, in_file(p, p->externs[e]), p->externs[e].length };
    }
}

static void write_marks(uint64_t pages, uint64_t *marks)
{
    for (; pages >= 64; pages -= 64)
        *marks++ = UINT64_MAX;
    if (pages > 0)
        *marks = (UINT64_C(1) << pages) - 1;
}

/* ---- the calls */

static void *cleared(uint64_t count, size_t size)
{
    void *at = calloc((size_t)count + 1, size);
    if (at == NULL)
        abort();
    return at;
}

struct plain *plain_survey(const uint8_t *file, struct nelgrauf_counts *counts)
{
    struct plain *p = cleared(1, sizeof *p);
    struct nelgrauf_counts *c = &p->counts;
    uint32_t table = dword(file + 8);
    c->file_sections = word(file + 2);
    c->symbol_records = table == 0 ? 0 : dword(file + 12);
    p->file = file;
    p->strings = file + table + 18 * c->symbol_records;
    p->types = word(file) == 0x8664 ? x64 : i386;
    p->sections = cleared(c->file_sections, sizeof *p->sections);
    p->symbols = cleared(c->symbol_records, sizeof *p->symbols);
    p->externs = cleared(c->symbol_records, sizeof *p->externs);
    read_sections(p);
    read_symbols(p);
    mark_named(p);
    collect_externs(p);
    for (uint32_t j = 0; j < c->symbol_records; j++)
        if (p->symbols[j].named && p->symbols[j].own)
            find_target(p, &p->symbols[j]);
    count_relocations(p);
    *counts = *c;
    return p;
}

void plain_load(const struct plain *p, uint64_t base, const struct tables *t)
{
    write_marks(p->counts.pages, t->marks);
    write_sections(p, base, t->image, t->sections);
    write_symbols(p, base, t->symbols);
    write_externs(p, base, t->image, t->externs);
    write_relocations(p, base, t->fixups, t->skips);
}

void plain_patch(uint64_t base, uint8_t *image, const struct nelgrauf_fixup *fixups, uint64_t count)
{
    for (uint64_t i = 0; i < count; i++) {
        uint8_t *place = image + (fixups[i].place - base);
        if (fixups[i].bits == 32)
            memcpy(place, &fixups[i].value, 4);
        else
            memcpy(place, &fixups[i].value, 8);
    }
}

void plain_free(struct plain *p)
{
    free(p->sections);
    free(p->symbols);
    free(p->externs);
    free(p);
}

uint64_t plain_routine(const struct tables *t, const struct nelgrauf_counts *counts, uint64_t address, struct nelgrauf_nearest *nearest)
{
    uint64_t home = 0, code = NELGRAUF_NO_ROUTINE;
    while (home < counts->sections && (address < t->sections[home].start || t->sections[home].end <= address))
        home++;
    if (home == counts->sections)
        return NELGRAUF_NO_SECTION;
    for (uint64_t i = 0; i < counts->symbols; i++) {
        const struct nelgrauf_symbol *s = &t->symbols[i];
        if (s->home == home && s->address <= address && (code != 0 || address - s->address <= nearest->distance)) {
            *nearest = (struct nelgrauf_nearest){ i, address - s->address };
            code = 0;
        }
    }
    return code;
}
