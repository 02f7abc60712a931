/* The objects of crates/test_objects/stdin, case by case:
 *
 *   case LABEL BASE LENGTH [OTHERBASE]
 *   LENGTH bytes and a newline, then a line for each action, up to the next case
 *
 * The actions that matter here are `lines`, `at BASE` (the object is loaded again there), `patch NUMBER POSITION`, `read ADDRESS LENGTH` and, before
 * any `at`, `routine ADDRESS`.
 * Storage and numbers are those of station.c, which is included before. */
#ifndef STREAM_H
#define STREAM_H

/* A patch with its number and position, or a read with its distance from the base of its load and its length. */
struct call {
    bool reads;
    uint64_t x;
    uint64_t y;
};

struct one_case {
    char label[128];
    struct bytes object;
    uint64_t bases[32]; /* BASE, OTHERBASE if there is one, and those of `at` */
    size_t bases_count;
    struct call calls[256];
    size_t calls_count;
    uint64_t routines[64]; /* the addresses whose routines are asked for */
    size_t routines_count;
    uint64_t loaded_at; /* base of the last load */
    bool has_lines;     /* `lines` is among the actions */
};

/* The line that was read last and is not used up, without its newline. */
struct stream {
    FILE *in;
    char *line;
    size_t room;
    bool ended;
};

/* `bytes` bytes of an object as a number, the first the lowest. */
static inline uint64_t number_at(const uint8_t *at, size_t bytes)
{
    uint64_t value = 0;
    while (bytes != 0)
        value = value << 8 | at[--bytes];
    return value;
}

static void next_line(struct stream *s)
{
    ssize_t n = getline(&s->line, &s->room, s->in);
    s->ended = n < 0;
    if (n > 0 && s->line[n - 1] == '\n')
        s->line[n - 1] = '\0';
}

static uint64_t number_in(const char *word, const char *line)
{
    uint64_t value = 0;
    if (!number_of(word, &value))
        die("no number '%s' in '%s'", word, line);
    return value;
}

static void add_base(struct one_case *c, uint64_t base)
{
    if (c->bases_count == sizeof c->bases / sizeof *c->bases)
        die("too many bases in %s", c->label);
    c->bases[c->bases_count++] = base;
}

static void add_call(struct one_case *c, struct call call)
{
    if (c->calls_count == sizeof c->calls / sizeof *c->calls)
        die("too many calls in %s", c->label);
    c->calls[c->calls_count++] = call;
}

static void add_routine(struct one_case *c, uint64_t address)
{
    if (c->routines_count == sizeof c->routines / sizeof *c->routines)
        die("too many routines in %s", c->label);
    c->routines[c->routines_count++] = address;
}

static void read_head(struct one_case *c, const char *line)
{
    char base[32], length[32], other[32];
    int words = sscanf(line, "case %127s %31s %31s %31s", c->label, base, length, other);
    if (words < 3)
        die("no case: '%s'", line);
    c->loaded_at = number_in(base, line);
    add_base(c, c->loaded_at);
    if (words == 4)
        add_base(c, number_in(other, line));
    c->object.size = (size_t)number_in(length, line);
}

static void read_object(struct one_case *c, FILE *in)
{
    c->object.at = lend(c->object.size, 1);
    if (fread(c->object.at, 1, c->object.size, in) != c->object.size || getc(in) != '\n')
        die("the object of %s is cut short", c->label);
}

static void read_action(struct one_case *c, const char *line)
{
    char word[32], x[32], y[32];
    int words = sscanf(line, "%31s %31s %31s", word, x, y);
    if (words == 1 && strcmp(word, "lines") == 0) {
        c->has_lines = true;
    } else if (words == 2 && strcmp(word, "at") == 0) {
        c->loaded_at = number_in(x, line);
        add_base(c, c->loaded_at);
    } else if (words == 3 && strcmp(word, "patch") == 0) {
        add_call(c, (struct call){ false, number_in(x, line), number_in(y, line) });
    } else if (words == 3 && strcmp(word, "read") == 0) {
        add_call(c, (struct call){ true, number_in(x, line) - c->loaded_at, number_in(y, line) });
    } else if (words == 2 && strcmp(word, "routine") == 0) {
        add_routine(c, number_in(x, line));
    }
}

/* Whether there was another case; its object is the caller's to free. */
static bool next_case(struct stream *s, struct one_case *c)
{
    if (s->line == NULL)
        next_line(s);
    if (s->ended)
        return false;
    *c = (struct one_case){ .has_lines = false };
    read_head(c, s->line);
    read_object(c, s->in);
    for (next_line(s); !s->ended && strncmp(s->line, "case ", 5) != 0; next_line(s))
        read_action(c, s->line);
    return true;
}

#endif
