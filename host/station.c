/* The station's host: surveys, loads, patches and reads back one object file, and prints what was loaded, or which routines addresses are in.
 * `station --help` says how it is called; docs/HOST.md has its lines and its exit status. */
#define _POSIX_C_SOURCE 200809L
#include "nelgrauf.h"

#include <errno.h>
#include <inttypes.h>
#include <stdarg.h>
#include <stdbool.h>
#include <stdio.h>
#include <stdlib.h>
#include <string.h>
#include <sys/stat.h>

enum { DONE = 0, REFUSED = 1, BAD_USE = 2, NOT_READ_BACK = 3, STOPPED = 4 };

struct options {
    bool stop_on_skips;
    bool patches; /* an option says how to patch */
    uint64_t portion;
    uint64_t *addresses; /* of --where, in their order */
    size_t addresses_count;
    uint64_t base;
    const char *path;
};

struct bytes {
    uint8_t *at;
    size_t size;
};

/* Everything that load fills. */
struct module {
    struct bytes file;
    struct bytes image;
    struct bytes marks;
    struct nelgrauf_section *sections;
    struct nelgrauf_symbol *symbols;
    struct nelgrauf_extern *externs;
    struct nelgrauf_fixup *fixups;
    struct nelgrauf_skip *skips;
    struct nelgrauf_counts counts;
};

static void die(const char *form, ...)
{
    va_list words;
    va_start(words, form);
    fputs("station: ", stderr);
    vfprintf(stderr, form, words);
    fputc('\n', stderr);
    va_end(words);
    exit(BAD_USE);
}

static void print_use(FILE *to)
{
    fputs("use: station [--stop-on-skips] [--portion N] [--] BASE FILE\n"
          "     station --where ADDRESS [--where ADDRESS ..] [--] BASE FILE\n"
          "  BASE  the image's first address, decimal or 0x.. hexadecimal\n"
          "  FILE  a COFF object; - is standard input\n"
          "  --portion N, --portion=N  apply N fixups a call (default: all in one)\n"
          "  --stop-on-skips           do not patch if a relocation was skipped\n"
          "  --where A, --where=A      print which routine the address is in, and patch nothing\n"
          "  --help                    print this, and do nothing else\n"
          "  --                        no option comes behind this\n"
          "exit status: 0 done, 1 refused, 2 could not be run or printed, 3 not read back, 4 stopped on skips\n", to);
}

/* The status, if all that was printed could be. */
static int printed(int status)
{
    if (fflush(stdout) != 0 || ferror(stdout))
        die("standard output: %s", strerror(errno));
    return status;
}

/* `count` cleared records; never a null pointer. */
static void *lend(uint64_t count, size_t size)
{
    void *at = count <= SIZE_MAX ? calloc(count == 0 ? 1 : (size_t)count, size) : NULL;
    if (at == NULL)
        die("no memory for %" PRIu64 " records of %zu bytes", count, size);
    return at;
}

/* ---- arguments */

/* A whole word of digits, decimal or after 0x hexadecimal, of at most 64 bits. */
static bool number_of(const char *word, uint64_t *value)
{
    bool hexadecimal = word[0] == '0' && (word[1] == 'x' || word[1] == 'X');
    const char *digits = hexadecimal ? word + 2 : word;
    const char *allowed = hexadecimal ? "0123456789abcdefABCDEF" : "0123456789";
    if (*digits == '\0' || digits[strspn(digits, allowed)] != '\0')
        return false;
    errno = 0;
    *value = strtoull(digits, NULL, hexadecimal ? 16 : 10);
    return errno == 0;
}

static void set_portion(struct options *o, const char *word)
{
    if (word == NULL)
        die("--portion needs a number");
    if (!number_of(word, &o->portion) || o->portion == 0)
        die("--portion needs a number from 1 on, not '%s'", word);
    o->patches = true;
}

static void add_address(struct options *o, const char *word)
{
    if (word == NULL)
        die("--where needs an address");
    if (!number_of(word, &o->addresses[o->addresses_count++]))
        die("--where needs an address, not '%s'", word);
}

/* Takes the option at *i, and its number if that is a word of its own; false where no option is left. */
static bool next_option(struct options *o, char **words, int *i)
{
    const char *word = words[*i];
    if (word == NULL || strncmp(word, "--", 2) != 0)
        return false;
    ++*i;
    if (strcmp(word, "--") == 0)
        return false;
    if (strcmp(word, "--help") == 0) {
        print_use(stdout);
        exit(printed(DONE));
    }
    if (strcmp(word, "--stop-on-skips") == 0)
        o->stop_on_skips = o->patches = true;
    else if (strcmp(word, "--portion") == 0)
        set_portion(o, words[(*i)++]);
    else if (strncmp(word, "--portion=", 10) == 0)
        set_portion(o, word + 10);
    else if (strcmp(word, "--where") == 0)
        add_address(o, words[(*i)++]);
    else if (strncmp(word, "--where=", 8) == 0)
        add_address(o, word + 8);
    else
        die("no such option: %s", word);
    return true;
}

static struct options options_of(int count, char **words)
{
    struct options o = { .stop_on_skips = false, .portion = UINT64_MAX, .addresses = lend((uint64_t)count, sizeof *o.addresses) };
    int i = count == 0 ? 0 : 1;
    while (next_option(&o, words, &i))
        continue;
    if (count - i != 2) {
        print_use(stderr);
        exit(BAD_USE);
    }
    if (o.addresses_count != 0 && o.patches)
        die("--where patches nothing, and goes with neither --portion nor --stop-on-skips");
    if (!number_of(words[i], &o.base))
        die("the base is no number: '%s'", words[i]);
    o.path = words[i + 1];
    return o;
}

/* ---- storage */

/* The file, of which no more is read than shows that it is too long. */
static struct bytes file_of(const char *path)
{
    const size_t most = NELGRAUF_MAX_FILE + 1;
    FILE *in = strcmp(path, "-") == 0 ? stdin : fopen(path, "rb");
    if (in == NULL)
        die("%s: %s", path, strerror(errno));
    struct stat about;
    if (fstat(fileno(in), &about) == 0 && S_ISDIR(about.st_mode))
        die("%s is a directory", path);
    setvbuf(in, NULL, _IONBF, 0); /* a buffer would read ahead */
    struct bytes file = { .at = lend(most, 1), .size = 0 };
    file.size = fread(file.at, 1, most, in);
    if (ferror(in))
        die("%s: %s", path, strerror(errno));
    if (in != stdin)
        fclose(in);
    return file;
}

static void give_back(struct module *m)
{
    free(m->file.at);
    free(m->image.at);
    free(m->marks.at);
    free(m->sections);
    free(m->symbols);
    free(m->externs);
    free(m->fixups);
    free(m->skips);
}

/* ---- the operations; each answers 0 or a refusal's number */

/* Lends what survey counts, and loads. */
static uint64_t load(struct module *m, uint64_t base)
{
    struct nelgrauf_counts *c = &m->counts;
    uint64_t code = nelgrauf_survey(m->file.at, m->file.size, c, sizeof *c);
    if (code != 0)
        memset(c, 0, sizeof *c);
    m->image.size = (size_t)c->pages * NELGRAUF_PAGE;
    m->image.at = lend(c->pages, NELGRAUF_PAGE);
    m->marks.size = (size_t)NELGRAUF_MARK_BYTES(c->pages);
    m->marks.at = lend(m->marks.size, 1);
    m->sections = lend(c->sections, sizeof *m->sections);
    m->symbols = lend(c->symbols, sizeof *m->symbols);
    m->externs = lend(c->externs, sizeof *m->externs);
    m->fixups = lend(c->fixups, sizeof *m->fixups);
    m->skips = lend(c->skips, sizeof *m->skips);
    /* also where survey refuses: load's first refusal, 12, comes before survey's */
    return nelgrauf_load(m->file.at, m->file.size, base, m->image.at, m->image.size, m->marks.at, m->marks.size,
                         m->sections, c->sections * sizeof *m->sections, m->symbols, c->symbols * sizeof *m->symbols,
                         m->externs, c->externs * sizeof *m->externs, m->fixups, c->fixups * sizeof *m->fixups,
                         m->skips, c->skips * sizeof *m->skips, c, sizeof *c);
}

static uint64_t patch(struct module *m, uint64_t base, uint64_t portion)
{
    struct nelgrauf_progress p = { .position = 0, .done = 0 };
    uint64_t code = 0;
    while (code == 0 && p.done == 0)
        code = nelgrauf_patch(base, m->image.at, m->image.size, m->marks.at, m->marks.size,
                              m->fixups, m->counts.fixups * sizeof *m->fixups, portion, p.position, &p, sizeof p);
    return code;
}

/* The whole image through read; `same` says whether it is the image. */
static uint64_t read_back(const struct module *m, uint64_t base, bool *same)
{
    uint8_t *out = lend(m->image.size, 1);
    uint64_t code = nelgrauf_read(base, m->image.at, m->image.size, m->marks.at, m->marks.size, base, out, m->image.size);
    *same = code == 0 && memcmp(out, m->image.at, m->image.size) == 0;
    free(out);
    return code;
}

static uint64_t routine(const struct module *m, uint64_t address, struct nelgrauf_nearest *nearest)
{
    return nelgrauf_routine(m->sections, m->counts.sections * sizeof *m->sections, m->symbols, m->counts.symbols * sizeof *m->symbols,
                            address, nearest, sizeof *nearest);
}

/* ---- what is printed */

static const char *refusal_words(uint64_t code)
{
    static const char *const words[] = {
        [NELGRAUF_FILE_SIZE] = "the file has under 20 or over 4194304 bytes",
        [NELGRAUF_MACHINE] = "the machine is neither i386 nor x64",
        [NELGRAUF_SECTION_TABLE] = "over 1,024 sections, or their table past the file's end",
        [NELGRAUF_SYMBOL_TABLE] = "a bad symbol or string table, or over 16384 symbol records",
        [NELGRAUF_SECTION_DATA] = "a section's address, raw data or relocations are bad, or over 32768 relocations",
        [NELGRAUF_NAME] = "a bad name of a section or symbol",
        [NELGRAUF_SECTION_NUMBER] = "a symbol's section number is above the count of sections",
        [NELGRAUF_PAGES] = "over 4096 pages to map",
        [NELGRAUF_EXTERNS] = "over 1024 extern names",
        [NELGRAUF_TARGET] = "a relocation whose target or type is not carried",
        [NELGRAUF_PLACE] = "a fixup with a byte outside the mapped pages",
        [NELGRAUF_BASE] = "the base is no multiple of 4096, or above 0x7f000000",
        [NELGRAUF_STORAGE] = "a lent buffer is too short",
        [NELGRAUF_POSITION] = "the position is above the count of fixups",
        [NELGRAUF_NOT_MAPPED] = "a byte that is not mapped, or a fixup of neither 32 nor 64 bits",
        [NELGRAUF_NO_SECTION] = "no section holds the address",
        [NELGRAUF_NO_ROUTINE] = "no symbol of the section lies at the address or below",
    };
    return code < sizeof words / sizeof *words && words[code] != NULL ? words[code] : "no such refusal";
}

static const char *reason_words(uint64_t reason)
{
    static const char *const words[] = {
        [NELGRAUF_NO_SYMBOL] = "no record of that symbol number",
        [NELGRAUF_NO_HOME] = "the symbol's section is not loaded",
        [NELGRAUF_NO_SLOT] = "no slot for the symbol's name",
        [NELGRAUF_UNKNOWN_TYPE] = "an unknown type",
    };
    return reason < sizeof words / sizeof *words && words[reason] != NULL ? words[reason] : "no such reason";
}

static void print_name(const struct module *m, uint64_t start, uint64_t length)
{
    putchar(' ');
    fwrite(m->file.at + start, 1, (size_t)length, stdout);
    putchar('\n');
}

static void print_section(const struct module *m, uint64_t i)
{
    const struct nelgrauf_section *s = &m->sections[i];
    printf("section %" PRIx64 " %" PRIx64 " %" PRIu64 " %" PRIu64 " %c%c%c", s->start, s->end, s->file_start, s->file_end,
           s->permissions & NELGRAUF_READ ? 'R' : '-', s->permissions & NELGRAUF_WRITE ? 'W' : '-',
           s->permissions & NELGRAUF_EXECUTE ? 'X' : '-');
    if (s->number == 0)
        puts(" UNDEF");
    else
        print_name(m, s->name_start, s->name_length);
}

static void print_symbol(const struct module *m, uint64_t i)
{
    static const char *const kinds[] = { "unknown", "text", "data", "section", "file", "label" };
    const struct nelgrauf_symbol *s = &m->symbols[i];
    printf("symbol %" PRIx64 " %s", s->address, s->kind < sizeof kinds / sizeof *kinds ? kinds[s->kind] : "?");
    print_name(m, s->name_start, s->name_length);
}

/* A value as a signed number, whatever C makes of such a cast. */
static void print_signed(uint64_t v)
{
    if (v >> 63)
        printf("-%" PRIu64, ~v + 1);
    else
        printf("%" PRIu64, v);
}

static void print_fixups(const struct module *m)
{
    for (uint64_t i = 0; i < m->counts.fixups; i++) {
        printf("fix %" PRIx64 " %" PRIu64 " ", m->fixups[i].place, m->fixups[i].bits);
        print_signed(m->fixups[i].value);
        putchar('\n');
    }
}

/* A fixup is printed only once it is applied. */
static void print_module(const struct module *m, uint64_t base, bool patched)
{
    const struct nelgrauf_counts *c = &m->counts;
    printf("image %" PRIx64 " pages %" PRIu64 "\n", base, c->pages);
    for (uint64_t i = 0; i < c->sections; i++)
        print_section(m, i);
    for (uint64_t i = 0; i < c->symbols; i++)
        print_symbol(m, i);
    for (uint64_t i = 0; i < c->externs; i++) {
        printf("extern %" PRIx64, m->externs[i].address);
        print_name(m, m->externs[i].name_start, m->externs[i].name_length);
    }
    if (patched)
        print_fixups(m);
    for (uint64_t i = 0; i < c->skips; i++)
        printf("skip %" PRIu64 " %" PRIu64 " K%" PRIu64 "\n", m->skips[i].section, m->skips[i].record, m->skips[i].reason);
    printf("skipped %" PRIu64 " passed %" PRIu64 "\n", c->skips, c->passed);
}

static int refused(uint64_t code)
{
    printf("refused %" PRIu64 "\n", code);
    fprintf(stderr, "station: refused %" PRIu64 ": %s\n", code, refusal_words(code));
    return REFUSED;
}

/* Stopped before patching: the lines but for the fixups, and how often each reason was met. */
static int stopped_on_skips(const struct module *m, uint64_t base)
{
    print_module(m, base, false);
    puts("stopped");
    fprintf(stderr, "station: stopped before patching, skipped relocations: %" PRIu64 "\n", m->counts.skips);
    for (uint64_t reason = NELGRAUF_NO_SYMBOL; reason <= NELGRAUF_UNKNOWN_TYPE; reason++) {
        uint64_t times = 0;
        for (uint64_t i = 0; i < m->counts.skips; i++)
            times += m->skips[i].reason == reason;
        if (times != 0)
            fprintf(stderr, "station: K%" PRIu64 ", %s: %" PRIu64 "\n", reason, reason_words(reason), times);
    }
    return STOPPED;
}

/* A line for each address of --where; the status says whether one was refused. */
static int print_routines(const struct module *m, const struct options *o)
{
    int status = DONE;
    for (size_t i = 0; i < o->addresses_count; i++) {
        struct nelgrauf_nearest nearest;
        uint64_t code = routine(m, o->addresses[i], &nearest);
        if (code != 0) {
            status = refused(code);
            continue;
        }
        const struct nelgrauf_symbol *s = &m->symbols[nearest.symbol];
        fwrite(m->file.at + s->name_start, 1, (size_t)s->name_length, stdout);
        printf("+0x%" PRIx64 "\n", nearest.distance);
    }
    return status;
}

/* ---- the job */

static int run(struct module *m, const struct options *o)
{
    uint64_t code = load(m, o->base);
    if (code != 0)
        return refused(code);
    if (o->addresses_count != 0)
        return print_routines(m, o);
    if (o->stop_on_skips && m->counts.skips != 0)
        return stopped_on_skips(m, o->base);
    bool same = false;
    code = patch(m, o->base, o->portion);
    if (code == 0)
        code = read_back(m, o->base, &same);
    if (code != 0)
        return refused(code);
    if (!same) {
        fputs("station: the image that is read back differs from the image\n", stderr);
        return NOT_READ_BACK;
    }
    print_module(m, o->base, true);
    return DONE;
}

int main(int count, char **words)
{
    struct options o = options_of(count, words);
    struct module m = { .file = file_of(o.path) };
    int status = run(&m, &o);
    give_back(&m);
    free(o.addresses);
    return printed(status);
}
