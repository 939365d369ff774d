/*
 * The figures of document 01, and of document 02 as far as it is landed, typed
 * from them once for the C programs: limits, refusals by name, and the book that
 * document 01 prints. Python has them in tests/figures.py, Rust in
 * tests/second/figures.rs. tests/figures holds the three to each other, to the
 * engine's own and to the pages; known.c holds those of include/dpb.h to these.
 */
#ifndef FIGURES_H
#define FIGURES_H

/* Limits: at most this many. */
#define TEXT_BYTES 16384
#define NAMES 128
#define NAME_BYTES 32
#define RULES 256
#define ATOMS 256
#define FOLDS 8

/* Bits in a word, words in a row over atoms and in a body over names. */
#define WORD_BITS 64
#define ROW_WORDS 4
#define BODY_WORDS 2

/* Bytes of a folding table: an entry for each byte value. */
#define LETTER_BYTES 256

/* Bytes of the listing area, and of the longest listing. */
#define LISTING_BYTES 4608
#define LONGEST_LISTING 4271

/* The mark line of a book, its length, and how a listing begins. */
#define MARK "DPB 0001\n"
#define MARK_BYTES 9
#define LISTED "DPL 0001"

/*
 * The last line that can be at fault: the mark is line 1, a line end each is
 * the least that stands between, and a faulty line has two bytes.
 */
#define LAST_LINE (TEXT_BYTES - MARK_BYTES)

/* The numbers under which calls refuse. */
#define REFUSED_SHORT_AREA 1
#define REFUSED_LONG_TEXT 2
#define REFUSED_MARK 3
#define REFUSED_LAST_BYTE 4
#define REFUSED_LINE 5
#define REFUSED_NAMES 6
#define REFUSED_RULES 7
#define REFUSED_ATOMS 8
#define REFUSED_FOLDS 9
#define REFUSED_ILL_FORMED 10
#define REFUSED_START_LOST 11
#define REFUSED_LONG_WRITTEN 12
#define REFUSED_LONG_NAME 13
#define REFUSED_BARRED_BYTE 14
#define REFUSED_RESERVED_BYTE 20
#define REFUSED_UNSETTLED_ENTRY 21

/* The book that document 01 prints, '/' for a line end, and its listings without a fold, with one, and with as many as are allowed. */
#define PRINTED "p:q/q:p r/q:s/s:"
#define PRINTED_0 "DPL 0001 names=4 held=3 folds=0 rounds=4\np\nq\ns\n"
#define PRINTED_1 "DPL 0001 names=4 held=3 folds=1 rounds=4\np\nq\ns\n"
#define PRINTED_FOLDS "DPL 0001 names=4 held=3 folds=8 rounds=4\np\nq\ns\n"

_Static_assert(sizeof MARK - 1 == MARK_BYTES, "the mark's length");

#endif
