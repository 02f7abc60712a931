/* Nelgrauf from C: survey, load, patch and read of COFF objects, and the routine of an address. docs/HOST.md says what each record holds.
 *
 * Every function answers 0, or the number of a refusal (enum nelgrauf_refusal), and then nothing lent has changed.
 * A lent buffer is a pointer and its length in bytes. The pointer is never null, not even for length 0, and no buffer that a call
 * may write (`restrict`) overlaps another buffer of the same call. The functions keep no state, allocate nothing, and take no alignment for
 * granted; calls on different storage may run at the same time. They are for x86-64 only, so that a record of words, low byte first, is a
 * struct of 64-bit numbers. The header is C11, and C++11. */
#ifndef NELGRAUF_H
#define NELGRAUF_H

#include <stddef.h>
#include <stdint.h>

#if !defined(__x86_64__)
#error "libstation.a is compiled for x86-64"
#endif

/* What C and C++ say differently. */
#ifdef __cplusplus
#define NELGRAUF_RESTRICT __restrict
#define NELGRAUF_ASSERT static_assert
#else
#define NELGRAUF_RESTRICT restrict
#define NELGRAUF_ASSERT _Static_assert
#endif

/* The most bytes that a file may have. */
#define NELGRAUF_MAX_FILE 4194304u

/* Bytes of a page. */
#define NELGRAUF_PAGE 4096u

/* Bytes of marks that so many pages need: a bit for each, in whole words. */
#define NELGRAUF_MARK_BYTES(pages) (((pages) + 63) / 64 * 8)

/* The highest base that load takes. */
#define NELGRAUF_MAX_BASE UINT64_C(0x7F000000)

/* Why an operation was refused. */
enum nelgrauf_refusal {
    NELGRAUF_DONE = 0,            /* not refused */
    NELGRAUF_FILE_SIZE = 1,       /* the file has under 20 or over 4,194,304 bytes */
    NELGRAUF_MACHINE = 2,         /* neither i386 nor x64 */
    NELGRAUF_SECTION_TABLE = 3,   /* over 1,024 sections, or their table past the file */
    NELGRAUF_SYMBOL_TABLE = 4,    /* a bad symbol or string table, or over 16,384 symbol records */
    NELGRAUF_SECTION_DATA = 5,    /* a section's address, raw data or relocations are bad, or over 32,768 relocations */
    NELGRAUF_NAME = 6,            /* a bad name */
    NELGRAUF_SECTION_NUMBER = 7,  /* a symbol's section number above the count */
    NELGRAUF_PAGES = 8,           /* over 4,096 mapped pages */
    NELGRAUF_EXTERNS = 9,         /* over 1,024 extern names */
    NELGRAUF_TARGET = 10,         /* a relocation whose target or type is not carried */
    NELGRAUF_PLACE = 11,          /* a fixup with a byte outside the mapped pages */
    NELGRAUF_BASE = 12,           /* the base is no page multiple, or above NELGRAUF_MAX_BASE */
    NELGRAUF_STORAGE = 13,        /* a lent buffer is too short, or the image is not whole pages */
    NELGRAUF_POSITION = 14,       /* the position is above the count of the fixups */
    NELGRAUF_NOT_MAPPED = 15,     /* a byte that is not mapped, or a fixup of neither 32 nor 64 bits */
    NELGRAUF_NO_SECTION = 19,     /* no section holds the address */
    NELGRAUF_NO_ROUTINE = 21      /* no listed symbol of its section lies at the address or below */
};

/* A symbol's kind. */
enum nelgrauf_kind {
    NELGRAUF_UNKNOWN = 0,  /* none of the others */
    NELGRAUF_TEXT = 1,     /* a function */
    NELGRAUF_DATA = 2,     /* data */
    NELGRAUF_SECTION = 3,  /* a section */
    NELGRAUF_FILE = 4,     /* a file's name */
    NELGRAUF_LABEL = 5     /* a label */
};

/* A section's permissions are a sum of these. */
enum nelgrauf_permission {
    NELGRAUF_READ = 1,    /* it may be read */
    NELGRAUF_WRITE = 2,   /* it may be written */
    NELGRAUF_EXECUTE = 4  /* it may be executed */
};

/* Why a relocation was skipped; the first that holds. */
enum nelgrauf_skip_reason {
    NELGRAUF_NO_SYMBOL = 1,    /* no record of that symbol number */
    NELGRAUF_NO_HOME = 2,      /* the symbol's section is not loaded, so it has no home */
    NELGRAUF_NO_SLOT = 3,      /* no slot for the symbol's name */
    NELGRAUF_UNKNOWN_TYPE = 4  /* the machine has no such type */
};

/* How much load needs, and the file's own numbers. */
struct nelgrauf_counts {
    uint64_t pages;          /* mapped pages */
    uint64_t sections;       /* section records, UNDEF's included */
    uint64_t symbols;        /* symbol records */
    uint64_t externs;        /* extern records */
    uint64_t fixups;         /* fixup records */
    uint64_t skips;          /* skip records */
    uint64_t passed;         /* passed relocations: those of sections that are not loaded */
    uint64_t file_sections;  /* section records of the file */
    uint64_t symbol_records; /* symbol records of the file, auxiliary ones included */
    uint64_t relocations;    /* relocations of the file */
};

/* A record of the section table; the last one is UNDEF's. */
struct nelgrauf_section {
    uint64_t start;       /* start address */
    uint64_t end;         /* end address */
    uint64_t file_start;  /* file start, 0 if uninitialised */
    uint64_t file_end;    /* file end, 0 if uninitialised */
    uint64_t permissions; /* enum nelgrauf_permission, added */
    uint64_t name_start;  /* start of the name in the file; UNDEF 0 */
    uint64_t name_length; /* length of the name; UNDEF 0 */
    uint64_t number;      /* section number in the file, from 1; UNDEF 0 */
};

/* A listed symbol. */
struct nelgrauf_symbol {
    uint64_t address;     /* start of its home plus value */
    uint64_t kind;        /* enum nelgrauf_kind */
    uint64_t name_start;  /* start of the name in the file */
    uint64_t name_length; /* length of the name */
    uint64_t number;      /* symbol number, from 0, auxiliary records counted */
    uint64_t home;        /* its section's record of the section table, from 0; never UNDEF's */
};

/* An extern name. */
struct nelgrauf_extern {
    uint64_t address;     /* address of the slot */
    uint64_t number;      /* the lowest symbol number that put the name there */
    uint64_t name_start;  /* start of the name in the file */
    uint64_t name_length; /* length of the name */
};

/* A fixup. */
struct nelgrauf_fixup {
    uint64_t place; /* address of the place */
    uint64_t bits;  /* 32 or 64 */
    uint64_t value; /* in two's complement */
};

/* A skipped relocation. */
struct nelgrauf_skip {
    uint64_t section; /* section number, from 1 */
    uint64_t record;  /* record, from 0 */
    uint64_t reason;  /* enum nelgrauf_skip_reason */
};

/* How far patch has come. */
struct nelgrauf_progress {
    uint64_t position; /* the position behind the portion */
    uint64_t done;     /* 1 if that is the list's end, else 0 */
};

/* Which routine an address is in. */
struct nelgrauf_nearest {
    uint64_t symbol;   /* record of the symbol table, from 0 */
    uint64_t distance; /* how far behind its address the asked one lies */
};

/* docs/HOST.md: sizes and offsets. */
#define NELGRAUF_SIZE(record, bytes) NELGRAUF_ASSERT(sizeof(struct record) == (bytes), #record)
#define NELGRAUF_AT(record, field, at) NELGRAUF_ASSERT(offsetof(struct record, field) == (at), #record "." #field)
NELGRAUF_SIZE(nelgrauf_counts, 80);
NELGRAUF_AT(nelgrauf_counts, pages, 0);
NELGRAUF_AT(nelgrauf_counts, sections, 8);
NELGRAUF_AT(nelgrauf_counts, symbols, 16);
NELGRAUF_AT(nelgrauf_counts, externs, 24);
NELGRAUF_AT(nelgrauf_counts, fixups, 32);
NELGRAUF_AT(nelgrauf_counts, skips, 40);
NELGRAUF_AT(nelgrauf_counts, passed, 48);
NELGRAUF_AT(nelgrauf_counts, file_sections, 56);
NELGRAUF_AT(nelgrauf_counts, symbol_records, 64);
NELGRAUF_AT(nelgrauf_counts, relocations, 72);
NELGRAUF_SIZE(nelgrauf_section, 64);
NELGRAUF_AT(nelgrauf_section, start, 0);
NELGRAUF_AT(nelgrauf_section, end, 8);
NELGRAUF_AT(nelgrauf_section, file_start, 16);
NELGRAUF_AT(nelgrauf_section, file_end, 24);
NELGRAUF_AT(nelgrauf_section, permissions, 32);
NELGRAUF_AT(nelgrauf_section, name_start, 40);
NELGRAUF_AT(nelgrauf_section, name_length, 48);
NELGRAUF_AT(nelgrauf_section, number, 56);
NELGRAUF_SIZE(nelgrauf_symbol, 48);
NELGRAUF_AT(nelgrauf_symbol, address, 0);
NELGRAUF_AT(nelgrauf_symbol, kind, 8);
NELGRAUF_AT(nelgrauf_symbol, name_start, 16);
NELGRAUF_AT(nelgrauf_symbol, name_length, 24);
NELGRAUF_AT(nelgrauf_symbol, number, 32);
NELGRAUF_AT(nelgrauf_symbol, home, 40);
NELGRAUF_SIZE(nelgrauf_extern, 32);
NELGRAUF_AT(nelgrauf_extern, address, 0);
NELGRAUF_AT(nelgrauf_extern, number, 8);
NELGRAUF_AT(nelgrauf_extern, name_start, 16);
NELGRAUF_AT(nelgrauf_extern, name_length, 24);
NELGRAUF_SIZE(nelgrauf_fixup, 24);
NELGRAUF_AT(nelgrauf_fixup, place, 0);
NELGRAUF_AT(nelgrauf_fixup, bits, 8);
NELGRAUF_AT(nelgrauf_fixup, value, 16);
NELGRAUF_SIZE(nelgrauf_skip, 24);
NELGRAUF_AT(nelgrauf_skip, section, 0);
NELGRAUF_AT(nelgrauf_skip, record, 8);
NELGRAUF_AT(nelgrauf_skip, reason, 16);
NELGRAUF_SIZE(nelgrauf_progress, 16);
NELGRAUF_AT(nelgrauf_progress, position, 0);
NELGRAUF_AT(nelgrauf_progress, done, 8);
NELGRAUF_SIZE(nelgrauf_nearest, 16);
NELGRAUF_AT(nelgrauf_nearest, symbol, 0);
NELGRAUF_AT(nelgrauf_nearest, distance, 8);

#undef NELGRAUF_SIZE
#undef NELGRAUF_AT
#undef NELGRAUF_ASSERT

#ifdef __cplusplus
extern "C" {
#endif

/* Counts what a file needs: struct nelgrauf_counts into `counts`. Refusals, in this order: 1 to 11; 13 if `counts` has under 80 bytes. */
uint64_t nelgrauf_survey(const void *file, size_t file_bytes, void *NELGRAUF_RESTRICT counts, size_t counts_bytes);

/* Writes tables, marks and image of a file at `base`, and its counts. Room is needed for what survey counts; bytes past that are
 * left as they were. No fixup is applied. Refusals, in this order: 12; 1 to 11; 13 if a buffer is too short, `counts` (80 bytes) included. */
uint64_t nelgrauf_load(const void *file, size_t file_bytes, uint64_t base,
                       void *NELGRAUF_RESTRICT image, size_t image_bytes, void *NELGRAUF_RESTRICT marks, size_t marks_bytes,
                       void *NELGRAUF_RESTRICT sections, size_t sections_bytes, void *NELGRAUF_RESTRICT symbols, size_t symbols_bytes,
                       void *NELGRAUF_RESTRICT externs, size_t externs_bytes, void *NELGRAUF_RESTRICT fixups, size_t fixups_bytes,
                       void *NELGRAUF_RESTRICT skips, size_t skips_bytes, void *NELGRAUF_RESTRICT counts, size_t counts_bytes);

/* Applies `number` fixups of the list from `position` on, or all that are left; struct nelgrauf_progress into `progress`.
 * Number 0 applies none and leaves the position where it is. Image, marks and fixups are the counted parts.
 * Refusals, in this order: 14; 13 if `progress` has under 16 bytes, or the image is not whole pages or has too few marks; 15. */
uint64_t nelgrauf_patch(uint64_t base, void *NELGRAUF_RESTRICT image, size_t image_bytes, const void *marks, size_t marks_bytes,
                        const void *fixups, size_t fixups_bytes, uint64_t number, uint64_t position,
                        void *NELGRAUF_RESTRICT progress, size_t progress_bytes);

/* Copies the image's bytes from `address` on, as many as `out` takes; with length 0 the page of `address` is looked at all the same.
 * Refusals: 13, 15. */
uint64_t nelgrauf_read(uint64_t base, const void *image, size_t image_bytes, const void *marks, size_t marks_bytes,
                       uint64_t address, void *NELGRAUF_RESTRICT out, size_t out_bytes);

/* Which routine an address is in: of the symbols whose home is the section that holds it, the one with the greatest address not above it, and of
 * several there the last; struct nelgrauf_nearest into `nearest`. Any address may be asked. The tables are the counted parts as load wrote them; what
 * is left behind the last whole record of one is none. Refusals, in this order: 13 if `nearest` has under 16 bytes; 19; 21. */
uint64_t nelgrauf_routine(const void *sections, size_t sections_bytes, const void *symbols, size_t symbols_bytes,
                          uint64_t address, void *NELGRAUF_RESTRICT nearest, size_t nearest_bytes);

#ifdef __cplusplus
}
#endif

#endif
