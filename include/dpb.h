/*
 * dpb.h: the call of the DPB rule engine for C and C++, on x86-64 Linux.
 *
 * One call reads a rule book and lists the names that hold: those in every
 * model of the book. docs/GUIDE.md and docs/FORMAT.md say how a book is written,
 * docs/CALLS.md what other calls there are in Rattle.
 *
 * It asks for C99 or later, or C++11 or later; for C++98 too, where the
 * compiler has <stdint.h>, as GCC does.
 *
 * To link, once installed:  cc host.c $(pkg-config --cflags --libs dpb)
 * from a checkout:  (cd crates/dpb && rt lib) && cc -Iinclude host.c crates/dpb/out/libdpb.a
 */
#ifndef DPB_H
#define DPB_H

#include <stddef.h>
#include <stdint.h>

#ifdef __cplusplus
extern "C" {
#endif

/*
 * The release of this engine, as CHANGELOG.md counts them. The 0001 in a book's
 * mark and in a listing's head line is another thing: the version of the form.
 */
#define DPB_RELEASE "4.0.1"

/* Limits. At most this many: */
#define DPB_TEXT_BYTES 16384 /* bytes in a book, its mark line included */
#define DPB_NAMES 128        /* names in a book */
#define DPB_NAME_BYTES 32    /* bytes in a name */
#define DPB_RULES 256        /* rules in a book */
#define DPB_ATOMS 256        /* names, and one more for each rule whose head has several */
#define DPB_FOLDS 8          /* folds */

/* Bytes of the listing area that the call needs and writes. */
#define DPB_LISTING_BYTES 4608

/*
 * Bytes of stack that the call needs at most. Some 35,000 were measured, and
 * 38,000 for a first call, in which memcpy and memset were looked up; the rest
 * is margin. tests/native-calls holds the call to it.
 */
#define DPB_STACK_BYTES 49152

/*
 * Refusals. A book is listed whole or refused whole, under its first cause:
 * first 1, 2, 9, 3 and 4 are judged, in this order; then the lines from the top,
 * and in one line its form (5, 13 or 14), then 7, then 6; at last 8. So 1, 2 and
 * 9 are returned without a look at the text.
 *
 * 5, 13 and 14 share one place in this order: each is a line of no listed form,
 * and its leftmost fault says which. The fault is the first byte after which no
 * way on is left that would make the line blank, a remark or a rule; of a name
 * that is too long it is the 33rd byte. Where there is no such byte the colon is
 * missing, which only the line's end shows: 5. docs/FORMAT.md has cases.
 *
 * A line comes with 5, 6, 7, 13 and 14 only; the mark is line 1. The numbers 10,
 * 11, 12, 20 and 21 belong to calls that C does not have: this call never
 * returns them. 20 and 21 are of a folding table, which a site can lend in
 * Rattle; this call is lent none: its letters are always A to Z and a to z.
 */
#define DPB_LISTED 0               /* none: the listing is written */
#define DPB_REFUSED_SHORT_AREA 1   /* the lent area is too short: listing_len is under 4,608 */
#define DPB_REFUSED_LONG_TEXT 2    /* text over 16,384 bytes: shorten remarks, or split the book */
#define DPB_REFUSED_MARK 3         /* the first nine bytes are not "DPB 0001\n", or there are fewer */
#define DPB_REFUSED_NO_LINE_END 4  /* the last byte is not 0x0A: end the last line too */
#define DPB_REFUSED_LINE 5         /* line of no listed form, and neither 13 nor 14: look for a missing colon */
#define DPB_REFUSED_NAMES 6        /* the line has the 129th name */
#define DPB_REFUSED_RULES 7        /* the line is the 257th rule */
#define DPB_REFUSED_ATOMS 8        /* over 256 atoms: give fewer names several rules */
#define DPB_REFUSED_FOLDS 9        /* folds over 8 */
#define DPB_REFUSED_LONG_NAME 13   /* line of no listed form, at the 33rd byte of a run of name bytes */
#define DPB_REFUSED_BARRED_BYTE 14 /* line of no listed form, at a byte that is no name byte, blank or colon */

/*
 * dpb_list: lists a book.
 *
 *   text, text_len        the book, only read. Any bytes may stand in it, zeros
 *                         too; no zero is looked for at its end.
 *   folds                 0 to 8. The names listed are the same for each; the
 *                         rounds may differ. 8 is a good choice.
 *   listing, listing_len  the area lent for the listing, 4,608 bytes or more.
 *                         What it holds before the call does not matter.
 *
 * Returns 0, or refusal * 65,536 + line; take it apart by dpb_refusal and
 * dpb_line. The line is at most 16,375, so it always fits.
 *
 * On 0 the first 4,608 bytes of listing are the listing's text, then zeros.
 * The bytes past 4,608 of a longer area are as they were. The text is
 *
 *     DPL 0001 names=4 held=3 folds=8 rounds=4
 *     p
 *     q
 *     s
 *
 * that is, a head line and one line for each held name. Every line ends in
 * 0x0A, the last one too. In the head line there is one space (0x20) between
 * two fields; "DPL 0001" is always the same, and the numbers are in base ten
 * without leading zeros: the names in the book, the names held, folds, and the
 * rounds that were made. Names stand in the order in which they first appear in
 * the book (head before body, left to right), in small letters, 1 to 32 bytes
 * out of a-z 0-9 . _ - each. The text has at most 4,271 bytes and no zero
 * byte, so at least one zero follows it: the listing is a C string.
 *
 * On any refusal the whole listing area is as it was.
 *
 * The caller sees to it that text has text_len bytes that can be read, that
 * listing has listing_len bytes that can be written, and that the two do not
 * overlap. Neither has to be aligned. Where a length is 0 its pointer is not
 * used and may be NULL: text NULL, 0 gives 3 (where the listing area is long
 * enough and folds is at most 8), listing NULL, 0 gives 1.
 *
 * All other areas are the call's own, on its stack, of which it uses less than
 * DPB_STACK_BYTES. It allocates nothing, keeps nothing between calls, makes no
 * system call and does not set errno; of the C library it uses at most memcpy,
 * memmove, memset, memcmp and bcmp. So it is reentrant: several threads may call
 * it at once, as long as each lends a listing area of its own; they may share a
 * text. It always returns.
 */
uint64_t dpb_list(const uint8_t *text, size_t text_len, uint64_t folds,
                  uint8_t *listing, size_t listing_len);

/* The refusal in a result of dpb_list, 1 to 9, 13 or 14; 0 where the book was listed. */
static inline unsigned dpb_refusal(uint64_t result)
{
    return (unsigned)(result >> 16);
}

/* The line of a refusal, from 1; 0 where there is none. */
static inline unsigned dpb_line(uint64_t result)
{
    return (unsigned)(result & 0xFFFF);
}

/*
 * The words of a refusal, by its number: what is wrong, a colon, and what to do
 * or to look for, without a line end. The command dpl says the same words. It is
 * never NULL: a number that this header does not know has words that say so.
 */
static inline const char *dpb_words(unsigned refusal)
{
    switch (refusal) {
    case DPB_LISTED:
        return "listed";
    case DPB_REFUSED_SHORT_AREA:
        return "the listing area is too short: lend 4,608 bytes or more";
    case DPB_REFUSED_LONG_TEXT:
        return "the text has over 16,384 bytes: shorten remarks and blanks, or split the book";
    case DPB_REFUSED_MARK:
        return "the first line is not the mark DPB 0001: look for an empty input, a byte order mark before it, "
               "a carriage return after it, a mark of another version";
    case DPB_REFUSED_NO_LINE_END:
        return "the last line has no line end: end it, and look whether the text was cut off";
    case DPB_REFUSED_LINE:
        return "not a rule, a remark or an empty line: look for a missing colon, two colons, "
               "no name or two names before the colon";
    case DPB_REFUSED_NAMES:
        return "this line has the 129th name: look for a name spelt in two ways, or split the book";
    case DPB_REFUSED_RULES:
        return "this line is the 257th rule: drop rules given twice, or split the book";
    case DPB_REFUSED_ATOMS:
        return "over 256 atoms, which are the names and one more for each rule whose head has several: "
               "give fewer names several rules";
    case DPB_REFUSED_FOLDS:
        return "over 8 folds: ask for 0 to 8";
    case DPB_REFUSED_LONG_NAME:
        return "a name of over 32 bytes: shorten it, or look for a blank or a colon left out";
    case DPB_REFUSED_BARRED_BYTE:
        return "a byte that no rule has: look for a carriage return, an accent, a comma, a # that is not first";
    default:
        return "refused, under a number that this release has no words for";
    }
}

/*
 * A walk over the names of a listing, after a call that returned 0:
 *
 *     const char *name;
 *
 *     for (name = dpb_first_name(listing); name; name = dpb_next_name(name))
 *         printf("%.*s\n", (int)dpb_name_length(name), name);
 *
 * A name is a part of the listing area itself: it ends at its line's end and
 * not in a zero, and is there as long as the area is. After a refusal the area
 * is no listing, and none of these may be asked.
 */

/* What stands after the line that begins here: a name, or NULL at the listing's end. */
static inline const char *dpb_next_name(const char *name)
{
    while (*name != '\n')
        name++;
    name++;
    return *name ? name : NULL;
}

/* The first name of a listing, NULL where no name is held: it stands after the head line. */
static inline const char *dpb_first_name(const uint8_t *listing)
{
    return dpb_next_name((const char *)listing);
}

/* The bytes of such a name, 1 to 32. */
static inline size_t dpb_name_length(const char *name)
{
    size_t len = 0;

    while (name[len] != '\n')
        len++;
    return len;
}

/* 1 where a listing has this name, a string in small letters; else 0. */
static inline int dpb_holds(const uint8_t *listing, const char *wanted)
{
    const char *name;

    for (name = dpb_first_name(listing); name; name = dpb_next_name(name)) {
        size_t at = 0;

        while (name[at] != '\n' && name[at] == wanted[at])
            at++;
        if (name[at] == '\n' && wanted[at] == 0)
            return 1;
    }
    return 0;
}

#ifdef __cplusplus
}
#endif

#endif
