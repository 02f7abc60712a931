/* Which objects are held against the original. It finds a section's home by the section's file start, and UNDEF's file start is 0; here homes go by the
 * section's number. The two agree where no two sections of the file share a file start and none starts at 0, so elsewhere its answers are no measure.
 *
 *   held FILE..  prints the names of those files that are held
 *   held         prints the labels of those cases on standard input that are (stream.h has their form)
 *   held --test  tries the rule on made objects; the status is 1 if an answer is wrong */
#define main station_main
#include "station.c"
#undef main
#include "stream.h"

enum { HEADER = 20, RECORD = 40, UNINITIALISED = 0x80 };

/* ---- the rule */

/* The section records that lie whole in the file: how many, and where the first one is. */
static size_t records_of(const uint8_t *file, size_t length, size_t *first)
{
    if (length < HEADER)
        return *first = 0;
    *first = HEADER + number_at(file + 16, 2);
    size_t room = length < *first ? 0 : (length - *first) / RECORD;
    size_t count = number_at(file + 2, 2);
    return count < room ? count : room;
}

static uint32_t file_start(const uint8_t *record)
{
    return number_at(record + 36, 4) & UNINITIALISED ? 0 : (uint32_t)number_at(record + 20, 4);
}

static int by_size(const void *x, const void *y)
{
    uint32_t a = *(const uint32_t *)x, b = *(const uint32_t *)y;
    return (a > b) - (a < b);
}

/* Sections that are not loaded count too: the original gives them a home if a record has their file start. */
static bool held_against_original(const uint8_t *file, size_t length)
{
    size_t first, n = records_of(file, length, &first);
    uint32_t *starts = lend(n + 1, sizeof *starts); /* starts[0] is UNDEF's, 0 */
    for (size_t i = 0; i < n; i++)
        starts[i + 1] = file_start(file + first + RECORD * i);
    qsort(starts, n + 1, sizeof *starts, by_size);
    bool differ = true;
    for (size_t i = 0; i < n; i++)
        differ = differ && starts[i] != starts[i + 1];
    free(starts);
    return differ;
}

/* ---- its test */

struct section {
    uint32_t flags;
    uint32_t pointer;
};

struct made {
    const char *what;
    bool held;
    size_t count;    /* of sections, by the header */
    size_t written;  /* records in the file */
    size_t optional; /* bytes of the optional header, each 1, which would make a record that starts at 0x01010101 */
    size_t missing;  /* bytes at the end */
    const struct section *sections;
};

enum { TEXT = 0x60500020, DATA = 0x40, BSS = 0x40300080, REMOVED = 0x800, DISCARDED = 0x2000000 };

#define SECTIONS(...) .sections = (const struct section[]){ __VA_ARGS__ }

static const struct made table[] = {
    { "no bytes", true, 0, 0, .missing = HEADER },
    { "a byte short of a header", true, 1, 0, .missing = 1 },
    { "no section", true, 0, 0, .sections = NULL },
    { "one section", true, 1, 1, SECTIONS({ TEXT, 60 }) },
    { "one that starts at 0", false, 1, 1, SECTIONS({ TEXT, 0 }) },
    { "one without flags that starts at 0", false, 1, 1, SECTIONS({ 0, 0 }) },
    { "one uninitialised, pointer 0", false, 1, 1, SECTIONS({ BSS, 0 }) },
    { "one uninitialised, pointer 60", false, 1, 1, SECTIONS({ BSS, 60 }) },
    { "one with no other flag than uninitialised", false, 1, 1, SECTIONS({ UNINITIALISED, 60 }) },
    { "one with every flag but uninitialised", true, 1, 1, SECTIONS({ ~(uint32_t)UNINITIALISED, 60 }) },
    { "an unloaded one that starts at 0", false, 1, 1, SECTIONS({ REMOVED, 0 }) },
    { "an unloaded one, uninitialised", false, 1, 1, SECTIONS({ DISCARDED | BSS, 60 }) },
    { "two starts", true, 2, 2, SECTIONS({ TEXT, 100 }, { DATA, 104 }) },
    { "two starts, the greater first", true, 2, 2, SECTIONS({ TEXT, 104 }, { DATA, 100 }) },
    { "two starts with the same low bytes", true, 2, 2, SECTIONS({ TEXT, 0x01000064 }, { DATA, 0x02000064 }) },
    { "two starts with the same high bytes", true, 2, 2, SECTIONS({ TEXT, 0xFFFFFFFE }, { DATA, 0xFFFFFFFF }) },
    { "the same start twice", false, 2, 2, SECTIONS({ TEXT, 100 }, { DATA, 100 }) },
    { "the same start, the second unloaded", false, 2, 2, SECTIONS({ TEXT, 100 }, { REMOVED, 100 }) },
    { "the same start, the first unloaded", false, 2, 2, SECTIONS({ DISCARDED, 100 }, { DATA, 100 }) },
    { "the same start, both unloaded", false, 2, 2, SECTIONS({ DISCARDED, 100 }, { REMOVED, 100 }) },
    { "the same pointer, one uninitialised", false, 2, 2, SECTIONS({ TEXT, 100 }, { BSS, 100 }) },
    { "two uninitialised", false, 2, 2, SECTIONS({ BSS, 0 }, { BSS, 0 }) },
    { "two uninitialised with two pointers", false, 2, 2, SECTIONS({ BSS, 100 }, { BSS, 104 }) },
    { "the same start twice, another between", false, 3, 3, SECTIONS({ TEXT, 140 }, { DATA, 144 }, { DATA, 140 }) },
    { "the last of three starts at 0", false, 3, 3, SECTIONS({ TEXT, 140 }, { DATA, 144 }, { DATA, 0 }) },
    { "behind an optional header, start 0", false, 1, 1, .optional = 40, SECTIONS({ TEXT, 0 }) },
    { "behind an optional header, two starts", true, 2, 2, .optional = 40, SECTIONS({ TEXT, 0x01010101 }, { DATA, 60 }) },
    { "behind an optional header of 300 bytes", true, 2, 2, .optional = 300, SECTIONS({ TEXT, 400 }, { DATA, 404 }) },
    { "an optional header that the file cuts off", true, 1, 0, .optional = 300, .missing = 1 },
    { "records behind the count", true, 1, 2, SECTIONS({ TEXT, 100 }, { DATA, 100 }) },
    { "a count above the records", true, 2, 1, SECTIONS({ TEXT, 60 }) },
    { "a count above the records, start 0", false, 2, 1, SECTIONS({ TEXT, 0 }) },
    { "a last record that the file cuts off", true, 2, 2, .missing = 1, SECTIONS({ TEXT, 100 }, { DATA, 100 }) },
    { "an only record that the file cuts off", true, 1, 1, .missing = 1, SECTIONS({ TEXT, 0 }) },
};

static void put(uint8_t *at, uint32_t value, size_t bytes)
{
    for (; bytes != 0; bytes--, value >>= 8)
        *at++ = (uint8_t)value;
}

/* The object, in just as many bytes as it has, so that a sanitizer sees a look behind them. */
static struct bytes object_of(const struct made *m)
{
    size_t first = HEADER + m->optional, whole = first + RECORD * m->written;
    uint8_t *bytes = lend(whole, 1);
    put(bytes, 0x14C, 2);
    put(bytes + 2, (uint32_t)m->count, 2);
    put(bytes + 16, (uint32_t)m->optional, 2);
    memset(bytes + HEADER, 1, m->optional);
    for (size_t i = 0; i < m->written; i++) {
        put(bytes + first + RECORD * i + 20, m->sections[i].pointer, 4);
        put(bytes + first + RECORD * i + 36, m->sections[i].flags, 4);
    }
    struct bytes object = { .at = lend(whole - m->missing, 1), .size = whole - m->missing };
    memcpy(object.at, bytes, object.size);
    free(bytes);
    return object;
}

static bool is_right(const struct made *m)
{
    struct bytes object = object_of(m);
    bool right = held_against_original(object.at, object.size) == m->held;
    if (!right)
        fprintf(stderr, "held: FAILED: %s\n", m->what);
    free(object.at);
    return right;
}

/* `count` sections whose starts rise, then fall, and then with the last one's start the first one's. */
static bool many_are_right(size_t count)
{
    struct section *sections = lend(count, sizeof *sections);
    struct made m = { "many sections that rise", true, count, count, .sections = sections };
    for (size_t i = 0; i < count; i++)
        sections[i] = (struct section){ TEXT, (uint32_t)(i + 1) };
    bool right = is_right(&m);
    m.what = "many sections that fall";
    for (size_t i = 0; i < count; i++)
        sections[i].pointer = (uint32_t)(count - i);
    right = is_right(&m) && right;
    m.what = "many sections, the first and the last with the same start";
    m.held = false;
    sections[count - 1].pointer = sections[0].pointer;
    right = is_right(&m) && right;
    free(sections);
    return right;
}

static int test(void)
{
    bool right = true;
    for (size_t i = 0; i < sizeof table / sizeof *table; i++)
        right = is_right(&table[i]) && right;
    right = many_are_right(1024) && right;
    right = many_are_right(65535) && right;
    return right ? DONE : 1;
}

/* ---- the job */

/* Every section record lies in the bytes that file_of reads of a longer file. */
static void print_files(char **paths)
{
    for (; *paths != NULL; paths++) {
        struct bytes file = file_of(*paths);
        if (held_against_original(file.at, file.size))
            puts(*paths);
        free(file.at);
    }
}

static void print_labels(void)
{
    struct stream in = { .in = stdin };
    struct one_case c;
    while (next_case(&in, &c)) {
        if (held_against_original(c.object.at, c.object.size))
            puts(c.label);
        free(c.object.at);
    }
    free(in.line);
}

int main(int count, char **words)
{
    if (count == 2 && strcmp(words[1], "--test") == 0)
        return test();
    if (count > 1)
        print_files(words + 1);
    else
        print_labels();
    return printed(DONE);
}
