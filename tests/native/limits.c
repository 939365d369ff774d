/* Limits: each at its last good figure and one past it, and the largest books. */
#include "calls.h"

#include <string.h>

static void limit_of_text(void)
{
    struct text *t = marked();

    add(t, "a:\n#");
    add_times(t, TEXT_BYTES - t->len - 1, "x");
    add(t, "\n");
    listed("text as long as can be", t, 0, "DPL 0001 names=1 held=1 folds=0 rounds=1\na\n");
    add(t, "\n");
    refused("text one byte longer", t, 0, REFUSED_LONG_TEXT, 0);
    add_times(t, 3000, "\n");
    refused("text longer by 3,001 bytes", t, 0, REFUSED_LONG_TEXT, 0);
}

static void limit_of_lines(void)
{
    struct text *t = marked();

    add_times(t, TEXT_BYTES - t->len, "\n");
    listed("as many empty lines as can be", t, 8, "DPL 0001 names=0 held=0 folds=8 rounds=1\n");
    t->bytes[t->len - 2] = 'x';
    refused("the last line that can be at fault", t, 8, REFUSED_LINE, LAST_LINE);
    t->bytes[t->len - 2] = '\r';
    refused("the last line that can be at fault, a byte that is barred", t, 8, REFUSED_BARRED_BYTE, LAST_LINE);
}

/* a listing of n0, n1 and so on */
static const char *numbered(unsigned names, unsigned held, unsigned folds, unsigned rounds)
{
    static struct text want;

    want.len = 0;
    head_line(&want, names, held, folds, rounds);
    for (unsigned i = 0; i < held; i++)
        add(&want, "n%u\n", i);
    return shown(&want);
}

static void limit_of_names(void)
{
    struct text *t = marked();

    /* the mark is line 1: fact i is in line i + 2 */
    facts(t, 0, NAMES);
    listed("all names", t, 8, numbered(NAMES, NAMES, 8, 1));
    add(t, "#\nN5: n7 n0\n");
    facts(t, NAMES, NAMES + 1);
    refused("one name too many, as a head", t, 8, REFUSED_NAMES, NAMES + 4);

    t = marked();
    facts(t, 0, NAMES - 1);
    add(t, "n0: n1 last N1 over n2\n");
    refused("one name too many, in a body", t, 8, REFUSED_NAMES, NAMES + 1);
    t->len -= strlen(" over n2\n");
    add(t, "\n\nn0:last LAST\n");
    /* n0 has three rules, so three helpers; one of them holds at the start */
    listed("the last name in a body", t, 0, numbered(NAMES, NAMES - 1, 0, 2));
}

static void limit_of_name(void)
{
    listed("longest name", book_of(LONG_NAME ":"), 8, "DPL 0001 names=1 held=1 folds=8 rounds=1\n" LONG_NAME "\n");
    listed("longest name in a body", book_of("a: b " LONG_NAME "/b:/" LONG_NAME ":"), 0,
           "DPL 0001 names=3 held=3 folds=0 rounds=2\na\nb\n" LONG_NAME "\n");
    refused("name one byte longer", book_of(LONG_NAME "0:"), 8, REFUSED_LONG_NAME, 2);
    refused("name one byte longer in a body", book_of("/a: b " LONG_NAME "0 c"), 8, REFUSED_LONG_NAME, 3);
}

static void limit_of_rules(void)
{
    struct text *t = marked();

    /* each rule of a is a helper: with a itself they are the atoms; the atoms are no more than the rules */
    _Static_assert(ATOMS <= RULES, "rules for one name");
    add_times(t, ATOMS - 1, "a:\n");
    listed("as many rules for one name as can be", t, 0, "DPL 0001 names=1 held=1 folds=0 rounds=2\na\n");
    add_times(t, RULES - ATOMS + 1, "A:\n");
    refused("all rules for one name: too many atoms", t, 0, REFUSED_ATOMS, 0);
    add(t, "#\n\na:\n");
    refused("one rule too many", t, 0, REFUSED_RULES, RULES + 4);
}

static void limit_of_atoms(void)
{
    static struct text want;
    struct text *t = marked();

    chained_heads(t);
    for (unsigned folds = 0; folds <= FOLDS; folds += FOLDS) {
        want.len = 0;
        head_line(&want, IN_A_ROW + 1 + MORE_FACTS, IN_A_ROW + 1 + MORE_FACTS, folds, ROUNDS_IN_A_ROW);
        add(&want, "f\n");
        for (unsigned i = 1; i <= IN_A_ROW; i++)
            add(&want, "h%u\n", i);
        for (int i = 0; i < MORE_FACTS; i++)
            add(&want, "more%d\n", i);
        listed("heads in a row: all atoms", t, folds, shown(&want));
    }
    add(t, "g:\n");
    refused("one name more: one atom too many", t, 8, REFUSED_ATOMS, 0);
}

static void long_listings(void)
{
    struct text *t = marked();

    const char *listing = long_listing(0, ROUNDS_UNFOLDED);

    _Static_assert(4 * WITH_NAMES == ATOMS && 2 * WITH_NAMES == NAMES, "all atoms and all names");
    check(strlen(listing) == LONG_LISTING, "long listing", "expected %d bytes, came %zu", LONG_LISTING, strlen(listing));
    long_names(t);
    listed("all names, long ones, and all atoms", t, 0, listing);
    listed("all names, long ones, and all atoms", t, FOLDS, long_listing(FOLDS, ROUNDS_FOLDED));
    add(t, LONG("h") ":\n", DIGITS, 0);
    refused("one helper more", t, 8, REFUSED_ATOMS, 0);
}

/*
 * A chain of all names from its end and from its fact: a fold that is made in place
 * goes wrong in one of the two, and only for some fold numbers.
 */
static void chain(const char *label, int from_end)
{
    static struct text want;
    struct text *t = marked();

    for (unsigned i = 0; i < NAMES; i++) {
        unsigned at = from_end ? NAMES - 1 - i : i;

        if (at == 0)
            add(t, "n0:\n");
        else
            add(t, "n%u:n%u\n", at, at - 1);
    }
    for (unsigned folds = 0; folds <= FOLDS; folds++) {
        unsigned step = 1u << folds; /* one round for each step, which a fold doubles, and one that changes nothing */

        want.len = 0;
        head_line(&want, NAMES, NAMES, folds, (NAMES - 1 + step - 1) / step + 1);
        for (unsigned i = 0; i < NAMES; i++)
            add(&want, "n%u\n", from_end ? NAMES - 1 - i : i);
        listed(label, t, folds, shown(&want));
    }
}

static void limit_of_folds(void)
{
    struct text *t;

    chain("chain of all names from its end", 1);
    chain("chain of all names from its fact", 0);
    t = book_of(PRINTED);
    refused("one fold too many", t, FOLDS + 1, REFUSED_FOLDS, 0);
    refused("2^16 folds", t, 65536, REFUSED_FOLDS, 0);
    refused("2^32 folds", t, (uint64_t)1 << 32, REFUSED_FOLDS, 0);
    refused("2^63 + 1 folds", t, ((uint64_t)1 << 63) + 1, REFUSED_FOLDS, 0);
    refused("2^64 - 1 folds", t, UINT64_MAX, REFUSED_FOLDS, 0);
}

static void limit_of_listing(void)
{
    struct text *t = book_of(PRINTED);

    refused_room("no listing area", t, 8, 0);
    refused_room("listing area of one byte", t, 8, 1);
    refused_room("listing area one byte short", t, 8, LISTING_BYTES - 1);
    listed_room("listing area as stated", t, LISTING_BYTES, PRINTED_FOLDS);
    listed_room("listing area one byte longer", t, LISTING_BYTES + 1, PRINTED_FOLDS);
    listed_room("listing area nearly twice as long", t, 2 * LISTING_BYTES - 200, PRINTED_FOLDS);
    t = marked();
    long_names(t);
    listed_room("long names, listing area longer by 92 bytes", t, LISTING_BYTES + 92, long_listing(FOLDS, ROUNDS_FOLDED));
}

void limits(void)
{
    limit_of_text();
    limit_of_lines();
    limit_of_names();
    limit_of_name();
    limit_of_rules();
    limit_of_atoms();
    long_listings();
    limit_of_folds();
    limit_of_listing();
}
