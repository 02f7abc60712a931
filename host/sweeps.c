/* Sweeps over the objects of test_objects: each is loaded into storage that just has room, has more, or lacks a byte, at good and bad bases, is
 * asked for the routines of addresses, and is then patched and read by lists of calls at two bases. Every answer and every lent byte is held against what
 * the file, the tables and the calls make of it, found here a second way.
 *
 * Sanitizers do not see into the library. So every buffer ends at a page that must not be touched, and a call that goes a byte too far is stopped. */
#define _DEFAULT_SOURCE /* for MAP_ANONYMOUS */
#define main station_main
#include "station.c"
#undef main
#include "stream.h"

#include <signal.h>
#include <sys/mman.h>
#include <unistd.h>

/* Load's buffers, in its order. */
enum { IMAGE, MARKS, SECTIONS, SYMBOLS, EXTERNS, FIXUPS, SKIPS, COUNTS, BUFFERS };

static const struct kind {
    const char *name;
    size_t unit;        /* bytes of a page, a word or a record */
    uint64_t most;      /* units that the largest object needs */
    unsigned addresses; /* bit w: word w of a record is an address */
} kinds[BUFFERS] = {
    [IMAGE] = { "image", NELGRAUF_PAGE, 4096, 0 },
    [MARKS] = { "marks", 8, 64, 0 },
    [SECTIONS] = { "sections", sizeof(struct nelgrauf_section), 1025, 3 },
    [SYMBOLS] = { "symbols", sizeof(struct nelgrauf_symbol), 16384, 1 },
    [EXTERNS] = { "externs", sizeof(struct nelgrauf_extern), 1024, 1 },
    [FIXUPS] = { "fixups", sizeof(struct nelgrauf_fixup), 32768, 1 },
    [SKIPS] = { "skips", sizeof(struct nelgrauf_skip), 32768, 0 },
    [COUNTS] = { "counts", sizeof(struct nelgrauf_counts), 1, 0 },
};

/* FRONT bytes before each buffer are watched too. */
enum { FRONT = 64, MOST_FILE = NELGRAUF_MAX_FILE + NELGRAUF_PAGE, MOST_IMAGE = 4096 * NELGRAUF_PAGE };

static const char *label = "";
static uint64_t cases, loads, calls, failed;

static bool expect(bool holds, const char *form, ...)
{
    if (!holds) {
        va_list words;
        va_start(words, form);
        fprintf(stderr, "sweeps: FAILED: %s: ", label);
        vfprintf(stderr, form, words);
        fputc('\n', stderr);
        va_end(words);
    }
    return holds;
}

/* ---- storage */

/* The last `size` bytes before `end`, behind which nothing may be touched. */
struct buffer {
    uint8_t *end;
    uint8_t *at;
    size_t size;
};

struct storage {
    struct buffer of[BUFFERS];
    uint8_t pattern; /* what every byte was before the call */
};

static void cut(struct buffer *b, size_t size)
{
    b->at = b->end - size;
    b->size = size;
}

static struct buffer guarded(size_t most)
{
    size_t room = (FRONT + most + NELGRAUF_PAGE - 1) / NELGRAUF_PAGE * NELGRAUF_PAGE;
    uint8_t *at = mmap(NULL, room + NELGRAUF_PAGE, PROT_READ | PROT_WRITE, MAP_PRIVATE | MAP_ANONYMOUS | MAP_NORESERVE, -1, 0);
    if (at == MAP_FAILED || mprotect(at + room, NELGRAUF_PAGE, PROT_NONE) != 0)
        die("no memory for a buffer of %zu bytes", most);
    return (struct buffer){ .end = at + room, .at = at + room, .size = 0 };
}

static struct storage new_storage(void)
{
    struct storage s = { .pattern = 0 };
    for (int k = 0; k < BUFFERS; k++)
        s.of[k] = guarded((kinds[k].most + 1) * kinds[k].unit + 1);
    return s;
}

static void paint(struct buffer *b, uint8_t pattern)
{
    memset(b->at - FRONT, pattern, FRONT + b->size);
}

static void paint_all(struct storage *s, uint8_t pattern)
{
    s->pattern = pattern;
    for (int k = 0; k < BUFFERS; k++)
        paint(&s->of[k], pattern);
}

static bool all_are(const uint8_t *at, size_t n, uint8_t pattern)
{
    return n == 0 || (at[0] == pattern && memcmp(at, at + 1, n - 1) == 0);
}

/* Whether the bytes from `from` on have the pattern, and those before the buffer. */
static bool kept_from(const struct buffer *b, size_t from, uint8_t pattern)
{
    return all_are(b->at - FRONT, FRONT, pattern) && all_are(b->at + from, b->size - from, pattern);
}

static bool untouched(const struct storage *s, const char *when)
{
    for (int k = 0; k < BUFFERS; k++)
        if (!expect(kept_from(&s->of[k], 0, s->pattern), "%s: the call changed %s", when, kinds[k].name))
            return false;
    return true;
}

/* ---- loads */

/* The object at hand. */
static struct buffer file;

static uint64_t units(const struct nelgrauf_counts *c, int k)
{
    const uint64_t of[BUFFERS] = {
        c->pages, NELGRAUF_MARK_BYTES(c->pages) / 8, c->sections, c->symbols, c->externs, c->fixups, c->skips, 1
    };
    return of[k];
}

static size_t counted(const struct nelgrauf_counts *c, int k)
{
    return (size_t)units(c, k) * kinds[k].unit;
}

static void cut_exact(struct storage *s, const struct nelgrauf_counts *c)
{
    for (int k = 0; k < BUFFERS; k++)
        cut(&s->of[k], counted(c, k));
}

static bool good_base(uint64_t base)
{
    return base % NELGRAUF_PAGE == 0 && base <= NELGRAUF_MAX_BASE;
}

static uint64_t load_into(struct storage *s, uint64_t base)
{
    struct buffer *b = s->of;
    loads++;
    return nelgrauf_load(file.at, file.size, base, b[IMAGE].at, b[IMAGE].size, b[MARKS].at, b[MARKS].size,
                         b[SECTIONS].at, b[SECTIONS].size, b[SYMBOLS].at, b[SYMBOLS].size, b[EXTERNS].at, b[EXTERNS].size,
                         b[FIXUPS].at, b[FIXUPS].size, b[SKIPS].at, b[SKIPS].size, b[COUNTS].at, b[COUNTS].size);
}

/* Whether the load gets this number and changes nothing, so that the storage can be used as it is for the next try. */
static bool load_refused(struct storage *s, uint64_t base, uint64_t want, const char *when)
{
    uint64_t code = load_into(s, base);
    return expect(code == want, "%s: load at 0x%" PRIx64 " answers %" PRIu64 ", not %" PRIu64, when, base, code, want)
        && untouched(s, when);
}

/* A bad base comes before everything in the file, and that before a short result; `code` is survey's answer. */
static bool refused_first(struct storage *s, uint64_t base, uint64_t code)
{
    if (!load_refused(s, base | 1, NELGRAUF_BASE, "a bad base")
        || !load_refused(s, NELGRAUF_MAX_BASE + NELGRAUF_PAGE, NELGRAUF_BASE, "a bad base"))
        return false;
    size_t whole = s->of[COUNTS].size;
    cut(&s->of[COUNTS], kinds[COUNTS].unit - 1);
    uint64_t want = !good_base(base) ? NELGRAUF_BASE : code == 0 ? NELGRAUF_STORAGE : code;
    bool right = load_refused(s, base, want, "short counts")
        && load_refused(s, base | 1, NELGRAUF_BASE, "short counts");
    cut(&s->of[COUNTS], whole);
    return right;
}

/* `code` is survey's answer; a bad base comes before it. */
static bool named_bases(struct storage *s, const struct one_case *t, uint64_t code)
{
    for (size_t i = 0; i < t->bases_count; i++) {
        uint64_t want = good_base(t->bases[i]) ? code : NELGRAUF_BASE;
        if (want != 0 && !load_refused(s, t->bases[i], want, "a base of the case"))
            return false;
    }
    return refused_first(s, t->bases[0], code);
}

/* `code` is survey's answer, and load's too, with storage and without. */
static bool refused_object(struct storage *s, const struct one_case *t, uint64_t code)
{
    for (int k = 0; k < BUFFERS; k++)
        cut(&s->of[k], (kinds[k].most < 16 ? kinds[k].most : 16) * kinds[k].unit);
    paint_all(s, 0xA5);
    if (!named_bases(s, t, code))
        return false;
    for (int k = 0; k < COUNTS; k++)
        cut(&s->of[k], 0);
    return named_bases(s, t, code);
}

static bool load_exact(struct storage *s, const struct nelgrauf_counts *c, uint64_t base)
{
    cut_exact(s, c);
    paint_all(s, 0xA5);
    uint64_t code = load_into(s, base);
    if (!expect(code == 0, "load at 0x%" PRIx64 " answers %" PRIu64, base, code)
        || !expect(memcmp(s->of[COUNTS].at, c, sizeof *c) == 0, "load's counts are not survey's"))
        return false;
    for (int k = 0; k < BUFFERS; k++)
        if (!expect(kept_from(&s->of[k], s->of[k].size, s->pattern), "load writes before %s", kinds[k].name))
            return false;
    return true;
}

/* Storage with more room than is needed. The other pattern shows which bytes the first load left. */
static bool load_longer(struct storage *s, const struct storage *exact, const struct nelgrauf_counts *c, uint64_t base)
{
    for (int k = 0; k < BUFFERS; k++)
        cut(&s->of[k], counted(c, k) + kinds[k].unit + 1);
    paint_all(s, 0x5A);
    uint64_t code = load_into(s, base);
    if (!expect(code == 0, "load into longer buffers answers %" PRIu64, code))
        return false;
    for (int k = 0; k < BUFFERS; k++)
        if (!expect(memcmp(s->of[k].at, exact->of[k].at, counted(c, k)) == 0, "load writes other bytes into longer %s", kinds[k].name)
            || !expect(kept_from(&s->of[k], counted(c, k), s->pattern), "load writes past the counted part of %s", kinds[k].name))
            return false;
    return true;
}

/* Storage that lacks one byte of one buffer, and bad bases. */
static bool load_shorter(struct storage *s, const struct one_case *t, const struct nelgrauf_counts *c, uint64_t base)
{
    char when[40];
    cut_exact(s, c);
    paint_all(s, 0xA5);
    for (int k = 0; k < BUFFERS; k++) {
        size_t n = counted(c, k);
        if (n == 0)
            continue;
        cut(&s->of[k], n - 1);
        snprintf(when, sizeof when, "a byte short of %s", kinds[k].name);
        if (!load_refused(s, base, NELGRAUF_STORAGE, when))
            return false;
        cut(&s->of[k], n);
    }
    return named_bases(s, t, 0);
}

/* ---- survey */

static struct buffer counts_room;

/* Survey's answer; `c` if that is 0. */
static bool surveyed(uint64_t *code, struct nelgrauf_counts *c)
{
    struct buffer *b = &counts_room;
    cut(b, sizeof *c - 1);
    paint(b, 0xA5);
    uint64_t untold = nelgrauf_survey(file.at, file.size, b->at, b->size);
    if (!expect(kept_from(b, 0, 0xA5), "survey changes short counts"))
        return false;
    cut(b, 2 * sizeof *c + 1);
    paint(b, 0xA5);
    *code = nelgrauf_survey(file.at, file.size, b->at, b->size);
    memcpy(c, b->at, sizeof *c);
    return expect(untold == (*code == 0 ? NELGRAUF_STORAGE : *code), "survey into short counts answers %" PRIu64, untold)
        && expect(kept_from(b, *code == 0 ? sizeof *c : 0, 0xA5), "survey writes what is not its counts");
}

static bool within_limits(const struct nelgrauf_counts *c)
{
    for (int k = 0; k < BUFFERS; k++)
        if (!expect(units(c, k) <= kinds[k].most, "survey counts more than %s may have", kinds[k].name))
            return false;
    return expect(c->sections > 0, "survey leaves UNDEF out")
        && expect(c->relocations == c->passed + c->skips + c->fixups, "the relocations are not those passed, skipped and fixed");
}

/* ---- origins */

/* The object at one base. */
struct place {
    uint64_t base;
    struct storage *s;
    struct nelgrauf_fixup *fixups; /* as they were loaded */
    uint8_t *laid;                 /* the image before any fixup */
    uint8_t *want;                 /* the image as it should be now */
    uint32_t *latest;              /* of a byte under fixups: the one that was applied last, or NONE */
};

#define NONE UINT32_MAX

/* When each fixup was applied last, from 1; 0 if never. */
static uint32_t times[32768];

static size_t image_size(const struct place *p)
{
    return p->s->of[IMAGE].size;
}

static const struct nelgrauf_section *sections_of(const struct place *p)
{
    return (const void *)p->s->of[SECTIONS].at;
}

static const struct nelgrauf_symbol *symbols_of(const struct place *p)
{
    return (const void *)p->s->of[SYMBOLS].at;
}

static const struct nelgrauf_extern *externs_of(const struct place *p)
{
    return (const void *)p->s->of[EXTERNS].at;
}

/* Whether so many bytes from an address on are in the image; an address below the base is far above it. */
static bool inside(const struct place *p, uint64_t address, uint64_t n)
{
    uint64_t d = address - p->base;
    return d <= image_size(p) && n <= image_size(p) - d;
}

/* What is read through the tables lies in image and file. */
static bool tables_fit(const struct place *p, const struct nelgrauf_counts *c)
{
    const struct nelgrauf_section *s = sections_of(p);
    for (uint64_t i = 0; i < c->sections; i++)
        if (!expect(s[i].start <= s[i].end && inside(p, s[i].start, s[i].end - s[i].start) && s[i].file_start <= s[i].file_end
                    && s[i].file_end <= file.size, "section record %" PRIu64 " has a range outside", i))
            return false;
    for (uint64_t i = 0; i < c->externs; i++)
        if (!expect(externs_of(p)[i].address == s[c->sections - 1].start + 4 * i && inside(p, externs_of(p)[i].address, 4),
                    "slot %" PRIu64 " is not where it should be", i))
            return false;
    for (uint64_t i = 0; i < c->fixups; i++) {
        const struct nelgrauf_fixup *f = &p->fixups[i];
        if (!expect((f->bits == 32 || f->bits == 64) && inside(p, f->place, f->bits / 8), "fixup %" PRIu64 " is outside", i))
            return false;
    }
    return true;
}

/* A symbol's home is the record with the number of the section that the symbol names, and never UNDEF's, which is the last. */
static bool homes_fit(const struct place *p, const struct nelgrauf_counts *c)
{
    for (uint64_t i = 0; i < c->symbols; i++) {
        const struct nelgrauf_symbol *y = &symbols_of(p)[i];
        if (!expect(y->number < c->symbol_records && y->home < c->sections - 1, "symbol %" PRIu64 " has no record or no home", i))
            return false;
        uint64_t section = number_at(file.at + number_at(file.at + 8, 4) + 18 * y->number + 12, 2);
        if (!expect(sections_of(p)[y->home].number == section, "symbol %" PRIu64 " of section %" PRIu64 " has another home", i, section))
            return false;
    }
    return true;
}

static bool marks_fit(const struct place *p, const struct nelgrauf_counts *c)
{
    const struct buffer *b = &p->s->of[MARKS];
    for (uint64_t i = 0; i < b->size * 8; i++)
        if (!expect((b->at[i / 8] >> i % 8 & 1) == (i < c->pages), "the mark of page %" PRIu64 " is wrong", i))
            return false;
    return true;
}

static uint8_t byte_of(uint64_t value, uint64_t j)
{
    return (uint8_t)(value >> 8 * j);
}

/* Slots lie over sections and the first of several over the others, so the last is written first. */
static void lay(struct place *p, const struct nelgrauf_counts *c)
{
    memset(p->laid, 0, image_size(p));
    for (uint64_t i = c->sections; i-- > 0;) {
        const struct nelgrauf_section *s = &sections_of(p)[i];
        uint64_t range = s->end - s->start, filled = s->file_end - s->file_start;
        memset(p->laid + (s->start - p->base), 0, range);
        memcpy(p->laid + (s->start - p->base), file.at + s->file_start, filled < range ? filled : range);
    }
    for (uint64_t i = c->externs; i-- > 0;) {
        uint64_t address = externs_of(p)[i].address;
        for (uint64_t j = 0; j < 4; j++)
            p->laid[address - p->base + j] = byte_of(address, j);
    }
}

/* Of the fixups over a byte that were applied, the one with the greatest time; of equal times, the last. */
static void settle(struct place *p, const struct nelgrauf_counts *c)
{
    const struct nelgrauf_fixup *f = p->fixups;
    for (uint32_t k = 0; k < c->fixups; k++)
        for (uint64_t j = 0; j < f[k].bits / 8; j++)
            p->latest[f[k].place - p->base + j] = NONE;
    for (uint32_t k = 0; k < c->fixups; k++)
        for (uint64_t j = 0; times[k] > 0 && j < f[k].bits / 8; j++) {
            uint32_t *latest = &p->latest[f[k].place - p->base + j];
            if (*latest == NONE || times[*latest] <= times[k])
                *latest = k;
        }
    for (uint32_t k = 0; k < c->fixups; k++)
        for (uint64_t j = 0; j < f[k].bits / 8; j++) {
            uint64_t address = f[k].place + j, d = address - p->base;
            uint32_t by = p->latest[d];
            p->want[d] = by == NONE ? p->laid[d] : byte_of(f[by].value, address - f[by].place);
        }
}

static bool image_is(const struct place *p, const uint8_t *want, const char *when)
{
    const uint8_t *image = p->s->of[IMAGE].at;
    size_t d = 0;
    if (memcmp(image, want, image_size(p)) == 0)
        return true;
    while (image[d] == want[d])
        d++;
    return expect(false, "%s at 0x%" PRIx64 ": byte %zu of the image is 0x%02x, not 0x%02x", when, p->base, d, image[d], want[d]);
}

/* ---- calls */

static struct buffer progress_room, out_room;

static void stamp(const struct nelgrauf_counts *c, uint64_t number, uint64_t position, uint32_t time)
{
    for (uint64_t k = position; k < c->fixups && k - position < number; k++)
        times[k] = time;
}

/* The answer follows from number, position and count alone, so it is the same at every base. */
static bool patch_at(struct place *p, const struct nelgrauf_counts *c, uint64_t number, uint64_t position)
{
    struct buffer *b = p->s->of;
    struct nelgrauf_progress want;
    cut(&progress_room, sizeof want);
    paint(&progress_room, 0xA5);
    memset(&want, 0xA5, sizeof want);
    uint64_t want_code = position > c->fixups ? NELGRAUF_POSITION : NELGRAUF_DONE;
    if (want_code == 0) {
        uint64_t left = c->fixups - position;
        want.position = position + (number < left ? number : left);
        want.done = want.position == c->fixups;
    }
    calls++;
    uint64_t code = nelgrauf_patch(p->base, b[IMAGE].at, b[IMAGE].size, b[MARKS].at, b[MARKS].size, b[FIXUPS].at, b[FIXUPS].size,
                                   number, position, progress_room.at, progress_room.size);
    char when[80];
    snprintf(when, sizeof when, "patch %" PRIu64 " %" PRIu64 " of %" PRIu64, number, position, c->fixups);
    settle(p, c);
    return expect(code == want_code, "%s answers %" PRIu64 ", not %" PRIu64, when, code, want_code)
        && expect(memcmp(progress_room.at, &want, sizeof want) == 0, "%s comes to another position, or says done wrongly", when)
        && expect(memcmp(b[FIXUPS].at, p->fixups, b[FIXUPS].size) == 0, "%s changes its list", when)
        && image_is(p, p->want, when);
}

/* All pages of an image are mapped. With length 0 the page of the address counts. */
static bool read_at(const struct place *p, uint64_t address, uint64_t length)
{
    const struct buffer *b = p->s->of;
    cut(&out_room, length <= MOST_IMAGE ? (size_t)length : MOST_IMAGE + 1);
    paint(&out_room, 0xA5);
    bool there = inside(p, address, out_room.size == 0 ? 1 : out_room.size);
    uint64_t want_code = there ? NELGRAUF_DONE : NELGRAUF_NOT_MAPPED;
    calls++;
    uint64_t code = nelgrauf_read(p->base, b[IMAGE].at, b[IMAGE].size, b[MARKS].at, b[MARKS].size, address, out_room.at, out_room.size);
    bool right = there ? memcmp(out_room.at, p->want + (address - p->base), out_room.size) == 0 : kept_from(&out_room, 0, 0xA5);
    return expect(code == want_code, "read 0x%" PRIx64 " %zu at 0x%" PRIx64 " answers %" PRIu64 ", not %" PRIu64, address, out_room.size,
                  p->base, code, want_code)
        && expect(right, "read 0x%" PRIx64 " %zu at 0x%" PRIx64 " leaves other bytes", address, out_room.size, p->base);
}

/* ---- routines */

static struct buffer nearest_room;

/* From the last symbol to the first: one that lies higher takes the place of what was found. */
static uint64_t routine_of(const struct place *p, uint64_t sections, uint64_t symbols, uint64_t address, struct nelgrauf_nearest *found)
{
    const struct nelgrauf_section *s = sections_of(p);
    const struct nelgrauf_symbol *y = symbols_of(p), *best = NULL;
    uint64_t home = 0;
    while (home < sections && (address < s[home].start || s[home].end <= address))
        home++;
    if (home == sections)
        return NELGRAUF_NO_SECTION;
    for (uint64_t i = symbols; i-- > 0;)
        if (y[i].home == home && y[i].address <= address && (best == NULL || best->address < y[i].address))
            best = &y[i];
    if (best == NULL)
        return NELGRAUF_NO_ROUTINE;
    *found = (struct nelgrauf_nearest){ (uint64_t)(best - y), address - best->address };
    return NELGRAUF_DONE;
}

/* With as many bytes of the tables lent, which may end inside a record, and `room` for the result. */
static bool routine_in(const struct place *p, size_t sections, size_t symbols, size_t room, uint64_t address)
{
    struct nelgrauf_nearest want;
    memset(&want, 0xA5, sizeof want);
    uint64_t want_code = NELGRAUF_STORAGE;
    if (room == sizeof want)
        want_code = routine_of(p, sections / kinds[SECTIONS].unit, symbols / kinds[SYMBOLS].unit, address, &want);
    cut(&nearest_room, room);
    paint(&nearest_room, 0xA5);
    calls++;
    uint64_t code = nelgrauf_routine(sections_of(p), sections, symbols_of(p), symbols, address, nearest_room.at, room);
    return expect(code == want_code, "routine 0x%" PRIx64 " at 0x%" PRIx64 " answers %" PRIu64 ", not %" PRIu64, address, p->base, code, want_code)
        && expect(memcmp(nearest_room.at, &want, room) == 0, "routine 0x%" PRIx64 " at 0x%" PRIx64 " gives another symbol", address, p->base);
}

static bool routine_at(const struct place *p, uint64_t address)
{
    size_t sections = p->s->of[SECTIONS].size, symbols = p->s->of[SYMBOLS].size;
    return routine_in(p, sections, symbols, sizeof(struct nelgrauf_nearest), address)
        && routine_in(p, sections, symbols, sizeof(struct nelgrauf_nearest) - 1, address)
        && routine_in(p, sections - 1, symbols, sizeof(struct nelgrauf_nearest), address)
        && (symbols == 0 || routine_in(p, sections, symbols - 1, sizeof(struct nelgrauf_nearest), address));
}

/* At every bound of a section, at up to 64 of the symbols, beside them, and at both ends of 64 bits. */
static bool routines_at(const struct place *p, const struct nelgrauf_counts *c)
{
    bool right = routine_at(p, 0) && routine_at(p, UINT64_MAX);
    for (uint64_t i = 0; right && i < c->sections; i++) {
        const struct nelgrauf_section *s = &sections_of(p)[i];
        right = routine_at(p, s->start - 1) && routine_at(p, s->start) && routine_at(p, s->end - 1) && routine_at(p, s->end);
    }
    for (uint64_t i = 0; right && i < c->symbols; i += c->symbols / 64 + 1) {
        uint64_t address = symbols_of(p)[i].address;
        right = routine_at(p, address - 1) && routine_at(p, address) && routine_at(p, address + 1);
    }
    return right;
}

/* ---- two bases */

/* Bytes under a fixup or a slot of the first of two places. */
static uint8_t *covered;

static void cover(const struct place *p, const struct nelgrauf_counts *c)
{
    memset(covered, 0, image_size(p));
    for (uint64_t i = 0; i < c->externs; i++)
        memset(covered + (externs_of(p)[i].address - p->base), 1, 4);
    for (uint64_t i = 0; i < c->fixups; i++)
        memset(covered + (p->fixups[i].place - p->base), 1, p->fixups[i].bits / 8);
}

/* Between two addresses of an image, either way, and a few bytes more. */
static bool is_distance(uint64_t value)
{
    return value + 2 * MOST_IMAGE <= 4 * (uint64_t)MOST_IMAGE;
}

/* Whether word i of a table moves as it should from base to base: an address by as much as the base, and so does a fixup's value if it is an
 * address of the image; a value that is a distance stays, as all else does. */
static bool moves(const struct place *p, int k, size_t i, uint64_t a, uint64_t b)
{
    const uint64_t by = p[1].base - p[0].base;
    size_t w = i % (kinds[k].unit / 8);
    if (k == FIXUPS && w == 2)
        return b - a == by ? inside(&p[0], a, 1) : b == a && is_distance(a);
    return b - a == (kinds[k].addresses >> w & 1 ? by : 0);
}

/* All tables but the image. */
static bool tables_move(const struct place *p, const struct nelgrauf_counts *c)
{
    for (int k = MARKS; k < BUFFERS; k++) {
        const uint64_t *a = (const void *)p[0].s->of[k].at, *b = (const void *)p[1].s->of[k].at;
        for (size_t i = 0; i < counted(c, k) / 8; i++)
            if (!expect(moves(p, k, i, a[i], b[i]), "word %zu of %s is 0x%" PRIx64 " at 0x%" PRIx64 " and 0x%" PRIx64
                        " at 0x%" PRIx64, i, kinds[k].name, a[i], p[0].base, b[i], p[1].base))
                return false;
    }
    return true;
}

/* Only bytes under a fixup or a slot differ between the bases. */
static bool same_elsewhere(const struct place *p)
{
    const uint8_t *a = p[0].s->of[IMAGE].at, *b = p[1].s->of[IMAGE].at;
    for (size_t page = 0; page < image_size(p); page += NELGRAUF_PAGE) {
        if (memcmp(a + page, b + page, NELGRAUF_PAGE) == 0)
            continue;
        for (size_t d = page; d < page + NELGRAUF_PAGE; d++)
            if (!expect(a[d] == b[d] || covered[d], "byte %zu of the image, under no fixup and no slot, changes with the base", d))
                return false;
    }
    return true;
}

/* A list of calls from the laid image on, at both places in step. */
static bool run_list(struct place *p, const struct nelgrauf_counts *c, const struct call *list, size_t count)
{
    memset(times, 0, sizeof times);
    for (int i = 0; i < 2; i++) {
        memcpy(p[i].s->of[IMAGE].at, p[i].laid, image_size(&p[i]));
        memcpy(p[i].want, p[i].laid, image_size(&p[i]));
    }
    for (size_t k = 0; k < count; k++) {
        if (!list[k].reads)
            stamp(c, list[k].x, list[k].y, (uint32_t)k + 1);
        for (int i = 0; i < 2; i++)
            if (list[k].reads ? !read_at(&p[i], p[i].base + list[k].x, list[k].y) : !patch_at(&p[i], c, list[k].x, list[k].y))
                return false;
    }
    return image_is(&p[0], p[0].want, "the end") && image_is(&p[1], p[1].want, "the end") && same_elsewhere(p);
}

/* ---- lists of calls */

enum { LISTS = 6, LIST = 6 };

static uint64_t state;

/* A case's numbers hang on its label alone. */
static void seed(void)
{
    state = UINT64_C(0xCBF29CE484222325);
    for (const char *s = label; *s != '\0'; s++)
        state = (state ^ (uint8_t)*s) * UINT64_C(0x100000001B3);
    state |= 1;
}

/* xorshift64*. */
static uint64_t any(void)
{
    state ^= state >> 12;
    state ^= state << 25;
    state ^= state >> 27;
    return state * UINT64_C(0x2545F4914F6CDD1D);
}

/* A number near 0, near n, within, or at the end of 64 bits. */
static uint64_t near(uint64_t n)
{
    switch (any() >> 32 & 7) {
    case 0:
        return any() % 3;
    case 1:
        return n - any() % 3;
    case 2:
        return n + any() % 3;
    case 3:
        return UINT64_MAX - any() % 3;
    default:
        return any() % (n + 1);
    }
}

/* Whole in three portions, then some again; the position after the end is refused. */
static bool run_portions(struct place *p, const struct nelgrauf_counts *c)
{
    const uint64_t n = c->fixups, third = n / 3 + 1;
    const struct call list[] = {
        { false, third, 0 }, { false, third, third < n ? third : n }, { false, UINT64_MAX, 2 * third < n ? 2 * third : n },
        { false, 1, n / 2 }, { false, third, 0 }, { false, 1, n + 1 },
    };
    return run_list(p, c, list, sizeof list / sizeof *list);
}

/* None, one and all bytes at both ends of the image, and past them. */
static bool run_reads(struct place *p, const struct nelgrauf_counts *c)
{
    const uint64_t n = image_size(p), below = UINT64_MAX;
    const struct call list[] = {
        { false, UINT64_MAX, 0 },
        { true, 0, 0 }, { true, 0, n }, { true, 0, n + 1 }, { true, 1, n }, { true, below, 0 }, { true, below, 1 }, { true, below, 2 },
        { true, n - 1, 0 }, { true, n - 1, 1 }, { true, n - 1, 2 }, { true, n, 0 }, { true, n, 1 }, { true, UINT64_MAX - p->base, 1 },
    };
    return run_list(p, c, list, sizeof list / sizeof *list);
}

static bool run_any(struct place *p, const struct nelgrauf_counts *c)
{
    struct call list[LIST + 2];
    for (size_t k = 0; k < LIST; k++)
        list[k] = (struct call){ false, near(c->fixups), near(c->fixups) };
    list[LIST] = (struct call){ true, near(image_size(p)), any() % 65 };
    list[LIST + 1] = (struct call){ true, near(image_size(p)), any() % (2 * NELGRAUF_PAGE) };
    return run_list(p, c, list, LIST + 2);
}

/* ---- cases */

static struct storage first, second;
static struct place places[2];

static bool take_place(struct place *p, const struct nelgrauf_counts *c, uint64_t base)
{
    p->base = base;
    if (!load_exact(p->s, c, base))
        return false;
    memcpy(p->fixups, p->s->of[FIXUPS].at, p->s->of[FIXUPS].size);
    if (!tables_fit(p, c) || !homes_fit(p, c) || !marks_fit(p, c))
        return false;
    lay(p, c);
    return image_is(p, p->laid, "load");
}

static bool lists_at(const struct one_case *t, const struct nelgrauf_counts *c, uint64_t base, uint64_t other)
{
    if (!take_place(&places[0], c, base) || !take_place(&places[1], c, other) || !tables_move(places, c))
        return false;
    if (!routines_at(&places[0], c) || !routines_at(&places[1], c))
        return false;
    cover(places, c);
    bool right = run_list(places, c, t->calls, t->calls_count) && run_portions(places, c) && run_reads(places, c);
    for (int i = 0; right && i < LISTS; i++)
        right = run_any(places, c);
    /* the calls were lent the marks to look at only */
    return right && marks_fit(&places[0], c) && marks_fit(&places[1], c);
}

/* The lists run at the case's first base and at each other good one that it names; if it names none, at one more. */
static bool accepted_object(const struct one_case *t, const struct nelgrauf_counts *c)
{
    uint64_t base = good_base(t->bases[0]) ? t->bases[0] : 0x20000000;
    if (!within_limits(c) || !load_exact(&first, c, base) || !load_longer(&second, &first, c, base) || !load_shorter(&second, t, c, base))
        return false;
    bool moved = false;
    for (size_t i = 0; i < t->bases_count; i++)
        if (good_base(t->bases[i]) && t->bases[i] != base) {
            moved = true;
            if (!lists_at(t, c, base, t->bases[i]))
                return false;
        }
    return moved || lists_at(t, c, base, base != NELGRAUF_MAX_BASE ? NELGRAUF_MAX_BASE : 0x10000000);
}

static bool sweep(const struct one_case *t)
{
    struct nelgrauf_counts c;
    uint64_t code;
    if (t->object.size > MOST_FILE)
        die("%s is too long", t->label);
    cut(&file, t->object.size);
    memcpy(file.at, t->object.at, t->object.size);
    seed();
    bool right = surveyed(&code, &c) && (code == 0 ? accepted_object(t, &c) : refused_object(&second, t, code));
    return right && expect(memcmp(file.at, t->object.at, t->object.size) == 0, "the file's bytes changed");
}

static void say(const char *words)
{
    if (write(STDERR_FILENO, words, strlen(words)) < 0)
        _exit(1);
}

static void stopped(int signal)
{
    (void)signal;
    say("sweeps: FAILED: ");
    say(label);
    say(": a byte outside the lent buffers was touched\n");
    _exit(1);
}

static void prepare(void)
{
    const struct sigaction action = { .sa_handler = stopped };
    sigaction(SIGSEGV, &action, NULL);
    sigaction(SIGBUS, &action, NULL);
    file = guarded(MOST_FILE);
    counts_room = guarded(3 * sizeof(struct nelgrauf_counts));
    progress_room = guarded(sizeof(struct nelgrauf_progress));
    nearest_room = guarded(sizeof(struct nelgrauf_nearest));
    out_room = guarded(MOST_IMAGE + 1);
    first = new_storage();
    second = new_storage();
    covered = lend(MOST_IMAGE, 1);
    for (int i = 0; i < 2; i++)
        places[i] = (struct place){ .s = i == 0 ? &first : &second, .fixups = lend(kinds[FIXUPS].most, kinds[FIXUPS].unit),
                                    .laid = lend(MOST_IMAGE, 1), .want = lend(MOST_IMAGE, 1), .latest = lend(MOST_IMAGE, sizeof(uint32_t)) };
}

int main(void)
{
    struct stream in = { .in = stdin };
    struct one_case t;
    prepare();
    while (next_case(&in, &t)) {
        label = t.label;
        cases++;
        failed += !sweep(&t);
        free(t.object.at);
    }
    free(in.line);
    printf("sweeps: %" PRIu64 " cases, %" PRIu64 " loads, %" PRIu64 " calls, %" PRIu64 " failed\n", cases, loads, calls, failed);
    return failed != 0 || cases == 0;
}
