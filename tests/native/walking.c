/*
 * The header's functions on a listing, and its words. A listing lies in a heap
 * block of exactly its text and one zero, so that a look past it is seen by
 * whatever watches this program.
 */
#include "calls.h"

#include <stdlib.h>
#include <string.h>

static uint8_t *laid_out(const char *listing)
{
    size_t bytes = strlen(listing) + 1;

    return memcpy(block(bytes), listing, bytes);
}

/* The names met in a walk, a line each, are what stands after the head line. */
static void walk(const char *label, const char *listing, unsigned names)
{
    static struct text met;
    const char *after = strchr(listing, '\n') + 1, *name;
    uint8_t *area = laid_out(listing);
    unsigned count = 0;

    met.len = 0;
    for (name = dpb_first_name(area); name; name = dpb_next_name(name)) {
        add_bytes(&met, name, dpb_name_length(name));
        add(&met, "\n");
        count++;
    }
    check(count == names, label, "expected a walk over %u names, came %u", names, count);
    check(met.len == strlen(after) && memcmp(met.bytes, after, met.len) == 0, label,
          "expected the names '%s', came '%.*s'", after, (int)met.len, (const char *)met.bytes);
    free(area);
}

static void walks(void)
{
    walk("a walk over no name", "DPL 0001 names=2 held=0 folds=8 rounds=1\n", 0);
    walk("a walk over one name", "DPL 0001 names=1 held=1 folds=0 rounds=1\na\n", 1);
    walk("a walk over the printed book", PRINTED_FOLDS, 3);
    walk("a walk over a long name", "DPL 0001 names=2 held=2 folds=8 rounds=1\n" LONG_NAME "\n-\n", 2);
    walk("a walk over all names, long ones", long_listing(FOLDS, ROUNDS_FOLDED), 2 * WITH_NAMES);
}

/* A listing as the call leaves it, in an area that nothing was written to before. */
static void walk_of_a_call(void)
{
    struct text *t = book_of(PRINTED);
    uint8_t *area = block(DPB_LISTING_BYTES);
    const char *name = NULL;

    check(dpb_list(t->bytes, t->len, FOLDS, area, DPB_LISTING_BYTES) == DPB_LISTED, "a walk after a call", "refused");
    name = dpb_first_name(area);
    check(name && dpb_name_length(name) == 1 && *name == 'p', "a walk after a call", "expected p first");
    name = name ? dpb_next_name(name) : NULL;
    check(name && dpb_name_length(name) == 1 && *name == 'q', "a walk after a call", "expected q next");
    name = name ? dpb_next_name(name) : NULL;
    check(name && dpb_name_length(name) == 1 && *name == 's', "a walk after a call", "expected s next");
    check(name && !dpb_next_name(name), "a walk after a call", "expected no name after s");
    free(area);
}

static void holding(void)
{
    static const char *const in[] = {"job.boot", "job.x", LONG_NAME, "-"};
    /* nothing; parts of names, more than a name; other letters; lines; the head line and its fields; a name not held */
    static const char *const out[] = {
        "", "job", "job.", "job.boo", "ob.boot", "job.boots", "job.boot ", LONG_NAME "-", "--", "Job.Boot",
        "\n", "job.x\n", "job.boot\njob.x", "DPL 0001 names=9 held=4 folds=8 rounds=2", "DPL", "9", "job.full",
    };
    uint8_t *area =
        laid_out("DPL 0001 names=9 held=4 folds=8 rounds=2\njob.boot\njob.x\n" LONG_NAME "\n-\n");

    for (size_t i = 0; i < COUNT(in); i++)
        check(dpb_holds(area, in[i]) == 1, "dpb_holds", "expected '%s' in the listing", in[i]);
    for (size_t i = 0; i < COUNT(out); i++)
        check(dpb_holds(area, out[i]) == 0, "dpb_holds", "expected '%s' not in the listing", out[i]);
    free(area);
    area = laid_out("DPL 0001 names=2 held=0 folds=8 rounds=1\n");
    check(dpb_holds(area, "a") == 0 && dpb_holds(area, "") == 0, "dpb_holds", "expected no name in an empty listing");
    free(area);
}

/* What the words are, header.c prints; here is that every number has some, and each refusal its own. */
static void words(void)
{
    static const unsigned own[] = {
        DPB_LISTED, REFUSED_SHORT_AREA, REFUSED_LONG_TEXT, REFUSED_MARK, REFUSED_LAST_BYTE, REFUSED_LINE, REFUSED_NAMES, REFUSED_RULES,
        REFUSED_ATOMS, REFUSED_FOLDS, REFUSED_LONG_NAME, REFUSED_BARRED_BYTE,
    };
    static const unsigned unknown[] = {
        REFUSED_ILL_FORMED, REFUSED_START_LOST, REFUSED_LONG_WRITTEN, REFUSED_RESERVED_BYTE, REFUSED_UNSETTLED_ENTRY, 255, 65536, ~0u,
    };
    const char *none = dpb_words(255);

    for (size_t i = 0; i < COUNT(own); i++) {
        check(strcmp(dpb_words(own[i]), none) != 0, "dpb_words", "expected words for %u", own[i]);
        for (size_t j = 0; j < i; j++)
            check(strcmp(dpb_words(own[i]), dpb_words(own[j])) != 0, "dpb_words",
                  "expected words of its own for %u, came those of %u", own[i], own[j]);
    }
    for (size_t i = 0; i < COUNT(unknown); i++)
        check(strcmp(dpb_words(unknown[i]), none) == 0, "dpb_words", "expected no words for %u", unknown[i]);
}

void walking(void)
{
    walks();
    walk_of_a_call();
    holding();
    words();
}
