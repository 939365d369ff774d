/* What is known beforehand: the header's figures, the known books, forms of lines, and the books in files. */
#include "calls.h"

#include <stdio.h>
#include <string.h>

/* ---- the header */

/* Each figure of the header is that of the specification, as figures.h has it. */
_Static_assert(DPB_TEXT_BYTES == TEXT_BYTES && DPB_LISTING_BYTES == LISTING_BYTES, "areas");
_Static_assert(DPB_NAMES == NAMES && DPB_NAME_BYTES == NAME_BYTES, "names");
_Static_assert(DPB_RULES == RULES && DPB_ATOMS == ATOMS && DPB_FOLDS == FOLDS, "rules, atoms, folds");
_Static_assert(DPB_LISTED == 0, "no refusal");
_Static_assert(DPB_REFUSED_SHORT_AREA == REFUSED_SHORT_AREA && DPB_REFUSED_LONG_TEXT == REFUSED_LONG_TEXT, "areas");
_Static_assert(DPB_REFUSED_MARK == REFUSED_MARK && DPB_REFUSED_NO_LINE_END == REFUSED_LAST_BYTE, "the text's ends");
_Static_assert(DPB_REFUSED_LINE == REFUSED_LINE && DPB_REFUSED_NAMES == REFUSED_NAMES && DPB_REFUSED_RULES == REFUSED_RULES, "lines");
_Static_assert(DPB_REFUSED_ATOMS == REFUSED_ATOMS && DPB_REFUSED_FOLDS == REFUSED_FOLDS, "atoms, folds");
_Static_assert(DPB_REFUSED_LONG_NAME == REFUSED_LONG_NAME && DPB_REFUSED_BARRED_BYTE == REFUSED_BARRED_BYTE, "sorts of bad lines");

/* The header's two functions on results; walking.c has the others. */
static void taking_apart(void)
{
    static const unsigned parts[][2] = {
        {0, 0}, {REFUSED_SHORT_AREA, 0}, {REFUSED_LINE, 3}, {REFUSED_NAMES, LAST_LINE}, {REFUSED_RULES, RULES + 2}, {REFUSED_FOLDS, 0},
        {REFUSED_LINE, 65535}, {REFUSED_LONG_NAME, 2}, {REFUSED_BARRED_BYTE, LAST_LINE},
    };

    for (size_t i = 0; i < COUNT(parts); i++) {
        uint64_t result = REFUSED(parts[i][0], parts[i][1]);

        check(dpb_refusal(result) == parts[i][0] && dpb_line(result) == parts[i][1], "dpb_refusal and dpb_line",
              "expected %u and %u, came %u and %u", parts[i][0], parts[i][1], dpb_refusal(result), dpb_line(result));
    }
}

/* ---- the known books of the specification */

struct known {
    const char *rules;
    uint64_t folds;
    const char *listing;
};

/* Those that it marks with a star. */
static const struct known starred[] = {
    {"", 0, "DPL 0001 names=0 held=0 folds=0 rounds=1\n"},
    {"", 8, "DPL 0001 names=0 held=0 folds=8 rounds=1\n"},
    {"a:", 0, "DPL 0001 names=1 held=1 folds=0 rounds=1\na\n"},
    {"a:", 8, "DPL 0001 names=1 held=1 folds=8 rounds=1\na\n"},
    {"a:a", 0, "DPL 0001 names=1 held=0 folds=0 rounds=1\n"},
    {"a:a", 8, "DPL 0001 names=1 held=0 folds=8 rounds=1\n"},
    {"p:q/q:p", 0, "DPL 0001 names=2 held=0 folds=0 rounds=1\n"},
    {"p:q/q:p", 8, "DPL 0001 names=2 held=0 folds=8 rounds=1\n"},
    {"x:y z/y:", 0, "DPL 0001 names=3 held=1 folds=0 rounds=1\ny\n"},
    {"x:y z/y:", 1, "DPL 0001 names=3 held=1 folds=1 rounds=1\ny\n"},
    {"d:c/c:b/b:a/a:", 0, "DPL 0001 names=4 held=4 folds=0 rounds=4\nd\nc\nb\na\n"},
    {"d:c/c:b/b:a/a:", 1, "DPL 0001 names=4 held=4 folds=1 rounds=3\nd\nc\nb\na\n"},
    {"d:c/c:b/b:a/a:", 2, "DPL 0001 names=4 held=4 folds=2 rounds=2\nd\nc\nb\na\n"},
    {"p:q/q:p r/r:s/s:", 0, "DPL 0001 names=4 held=2 folds=0 rounds=2\nr\ns\n"},
    {PRINTED, 0, PRINTED_0},
    {PRINTED, 1, PRINTED_1},
    {PRINTED, FOLDS, PRINTED_FOLDS},
    /* the rounds of this one follow from the definitions; the specification gives its rows */
    {"p:q s t/q:p t/s:t/t:", 0, "DPL 0001 names=4 held=2 folds=0 rounds=2\ns\nt\n"},
    {"p:q s t/q:p t/s:t/t:", 1, "DPL 0001 names=4 held=2 folds=1 rounds=2\ns\nt\n"},
    {"a:/a:b", 0, "DPL 0001 names=2 held=1 folds=0 rounds=2\na\n"},
    {"P:q/Q:", 0, "DPL 0001 names=2 held=2 folds=0 rounds=2\np\nq\n"},
};

/* The wrong roads that it warns of, and forms of lines; figures by hand. */
static const struct known forms[] = {
    {"a:b", 8, "DPL 0001 names=2 held=0 folds=8 rounds=1\n"},
    {"a:b b  b/b:", 0, "DPL 0001 names=2 held=2 folds=0 rounds=2\na\nb\n"},
    {"a:/a:", 3, "DPL 0001 names=1 held=1 folds=3 rounds=2\na\n"},
    {"a:a/a:b/b:a/b:b", 8, "DPL 0001 names=2 held=0 folds=8 rounds=1\n"},
    {" \t//\t", 0, "DPL 0001 names=0 held=0 folds=0 rounds=1\n"},
    {"\t A.b_C-9 \t:\t b  c\t/B:/c :", 0, "DPL 0001 names=3 held=3 folds=0 rounds=2\na.b_c-9\nb\nc\n"},
    {"#a:/a:", 0, "DPL 0001 names=1 held=1 folds=0 rounds=1\na\n"},
    {"#", 0, "DPL 0001 names=0 held=0 folds=0 rounds=1\n"},
    {"-:._", 0, "DPL 0001 names=2 held=0 folds=0 rounds=1\n"},
    {"b:a/c:b/a:", 0, "DPL 0001 names=3 held=3 folds=0 rounds=3\nb\na\nc\n"},
};

static void known_books(const struct known *books, size_t count)
{
    char label[100];

    for (size_t i = 0; i < count; i++) {
        snprintf(label, sizeof label, "book '%s', %u folds", books[i].rules, (unsigned)books[i].folds);
        listed(label, book_of(books[i].rules), books[i].folds, books[i].listing);
    }
}

void known(void)
{
    taking_apart();
    known_books(starred, COUNT(starred));
    known_books(forms, COUNT(forms));
}

/* ---- books in files */

static void read_file(const char *path, struct text *t)
{
    FILE *file = fopen(path, "rb");

    if (!file)
        give_up(path);
    t->len = fread(t->bytes, 1, sizeof t->bytes - 1, file);
    if (ferror(file))
        give_up(path);
    fclose(file);
}

void book_in_file(const char *book, const char *listing)
{
    static struct text text, want;

    read_file(book, &text);
    read_file(listing, &want);
    check(want.len <= LONGEST_LISTING && !memchr(want.bytes, 0, want.len), listing,
          "expected a listing, came %zu bytes", want.len);
    listed(book, &text, FOLDS, shown(&want));
}
