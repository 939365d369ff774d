/* What the files of this program share; main.c says what the program is. */
#ifndef CALLS_H
#define CALLS_H

#include "dpb.h"
#include "figures.h"

#define COUNT(array) (sizeof(array) / sizeof((array)[0]))
#define REFUSED(number, line) ((uint64_t)(number) * 65536 + (line))

/* The compiler holds the arguments to the format: most are used only where a check fails. */
#define PRINTS(words, rest) __attribute__((format(printf, words, rest)))

/* A call, and what is to come of it. */
struct sample {
    const char *label;
    const uint8_t *text; /* NULL where the text that is lent cannot be read */
    size_t len;
    uint64_t folds;
    size_t room;         /* bytes of the listing area */
    uint64_t want;       /* what the call returns */
    const char *listing; /* the listing's text where that is 0 */
};

/* ---- checks.c */

extern unsigned long checks, failures;

void check(int holds, const char *label, const char *format, ...) PRINTS(3, 4);
_Noreturn void give_up(const char *what); /* with the error that errno has */

/* a listing area before the call; the mask tells one filling from another */
void fill(uint8_t *area, size_t len, uint8_t mask);
/* the same area as the call is to leave it */
void fill_as_left(const struct sample *s, uint8_t *area, uint8_t mask);

void check_result(const struct sample *s, uint64_t came);
void check_area(const struct sample *s, const uint8_t *area, uint8_t mask);
void check_text(const struct sample *s, const uint8_t *text);

/* ---- texts.c */

#define TEXT_ROOM (TEXT_BYTES + 4096) /* over the limit, so that longer texts can be refused */

/* A book or a listing as it is put together. */
struct text {
    size_t len;
    uint8_t bytes[TEXT_ROOM];
};

void add_bytes(struct text *t, const void *bytes, size_t len);
void add_byte(struct text *t, unsigned byte);
void add(struct text *t, const char *format, ...) PRINTS(2, 3);
void add_times(struct text *t, size_t times, const char *part);

/* Each of these takes one of two texts in turn: with the next but one it is gone. */
struct text *empty(void);
struct text *marked(void); /* the mark line */
struct text *book_of(const char *rules); /* as the specification writes its samples: '/' ends a line */

void head_line(struct text *listing, unsigned names, unsigned held, unsigned folds, unsigned rounds);
const char *shown(struct text *listing); /* a listing put together, as a string */

#define LONG_NAME "n123456789.123456789_123456789-1" /* as long as a name may be */
_Static_assert(sizeof LONG_NAME - 1 == NAME_BYTES, "a long name");

/*
 * How many heads fit into the atoms: those of two rules in a row, each over the
 * one before, after one fact, and how many facts more then fit; those of two
 * rules with a name between each two, and how long their names can be.
 */
#define IN_A_ROW ((ATOMS - 1) / 3)
#define MORE_FACTS (ATOMS - 1 - 3 * IN_A_ROW)
#define WITH_NAMES (ATOMS / 4)
#define LONG_BYTES ((TEXT_BYTES - MARK_BYTES) / (6 * WITH_NAMES) - 1 < NAME_BYTES ? (TEXT_BYTES - MARK_BYTES) / (6 * WITH_NAMES) - 1 : NAME_BYTES)

/* such a name: a letter and a number with zeros before it; and the listing of all of them */
#define LONG(letter) letter "%0*u"
#define DIGITS (LONG_BYTES - 1)
#define LONG_LISTING (LONGEST_LISTING - NAMES * (NAME_BYTES - LONG_BYTES))

/* their rounds: with names between, folds skip one round a head */
#define ROUNDS_IN_A_ROW (2 * IN_A_ROW + 2)
#define ROUNDS_UNFOLDED (3 * WITH_NAMES + 1)
#define ROUNDS_FOLDED (2 * WITH_NAMES + 2)

/* books at the limits */
void facts(struct text *t, unsigned from, unsigned to);
void chained_heads(struct text *t);
void long_names(struct text *t);
const char *long_listing(unsigned folds, unsigned rounds); /* that of long_names */

/* ---- areas.c */

void catch_faults_and_delays(void);

/* Between these two a call is made: one that does not return ends the run, by its label. */
void await(const char *label);
void ended(void);

/* 1 and the result, or 0 and the address of a fault */
int called(const struct sample *s, const uint8_t *text, uint8_t *listing, uint64_t *result, void **fault);
/* the same, where a fault is a failed check */
int answered(const struct sample *s, const uint8_t *text, uint8_t *listing, uint64_t *result);
/* one call, and all that it leaves */
void run(const struct sample *s, const uint8_t *text, uint8_t *listing, uint8_t mask);

void *block(size_t bytes);
void *pages(size_t bytes, int may); /* of the machine, none of them used yet; may: as mprotect has it */
void in_heap(const struct sample *s, size_t skew, uint8_t mask);

struct sample sample(const char *label, const struct text *book, uint64_t folds);

/* A sample and its four calls. */
void listed(const char *label, const struct text *book, uint64_t folds, const char *listing);
void listed_room(const char *label, const struct text *book, size_t room, const char *listing);
void refused(const char *label, const struct text *book, uint64_t folds, unsigned number, unsigned line);
void refused_room(const char *label, const struct text *book, uint64_t folds, size_t room);

/* ---- the themes, a file each. All else in such a file is static: a check that is not called is unused, and the compiler says so. */

void known(void);
void book_in_file(const char *book, const char *listing); /* known.c too */
void limits(void);
void refusals(void);
void hosting(void);
void walking(void);
size_t stack(void); /* the most bytes of stack that a call took */

#endif
