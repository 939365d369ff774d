// What the two C programs share: document 01's limits (include/dpb.h has those of the call, tests/native/figures.h the others), the tables of a book, and
// the calls.
#ifndef BENCH_BOOK_H
#define BENCH_BOOK_H

#include "../include/dpb.h"
#include "../tests/native/figures.h"

#include <stddef.h>
#include <stdint.h>

// Rows and bodies are written out word by word, and the top byte of a hash is a slot: other limits need other text here.
_Static_assert(ROW_WORDS == 4 && BODY_WORDS == 2 && 2 * DPB_NAMES == 256, "words and slots");

// The tables of a book. Only the first n names and m rules are written: nobody reads past them, so nothing is cleared.
struct book {
    size_t n, m;
    uint64_t names[DPB_NAMES][DPB_NAME_BYTES / 8]; // bytes, eight to a word; the last word that a name reaches is padded with zeros
    uint8_t length[DPB_NAMES];
    uint8_t slots[2 * DPB_NAMES]; // the hash index: 1 + a name's number, 0 for none
    uint8_t heads[DPB_RULES];
    uint64_t bodies[DPB_RULES][BODY_WORDS];
};

// A refusal as the calls return it.
static inline uint64_t refusal(uint64_t number, uint64_t line) { return number * 65536 + line; }

// Reads a text of at most DPB_TEXT_BYTES bytes: 0, or a refusal.
uint64_t read_book(const uint8_t *text, size_t text_len, struct book *book);

// The causes that come before reading: 0, or a refusal.
uint64_t judge_call(size_t text_len, uint64_t folds, size_t listing_len);

// How many atoms the book has; rules_of gets the number of rules of each name.
size_t count_atoms(const struct book *book, uint16_t rules_of[DPB_NAMES]);

// What the listing is made of: each returns the place after what it puts.
uint8_t *put_field(uint8_t *to, const char *field, size_t number);
uint8_t *put_held(uint8_t *to, const struct book *book, const uint64_t held[BODY_WORDS]);

// The two C programs, with the arguments and the answer of dpb_list.
uint64_t baseline_list(const uint8_t *text, size_t text_len, uint64_t folds, uint8_t *listing, size_t listing_len);
uint64_t counting_list(const uint8_t *text, size_t text_len, uint64_t folds, uint8_t *listing, size_t listing_len);

#endif
