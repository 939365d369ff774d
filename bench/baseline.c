// The baseline: from text to listing as document 01 has it, in plain C. It makes the rows, folds them and runs the rounds, as the engine does,
// but of its own areas it clears only what it then adds to (hash slots, counts of rules, rows that get single bits), it checks nothing twice,
// and the folded rows stay where the last fold put them. Of rows it copies one in each round but the last, the set.
#include "book.h"

#include <stdbool.h>
#include <string.h>

// The small letter of a name byte, 0 for a byte that no name has.
static const uint8_t fold[256] = {
    ['-'] = '-', ['.'] = '.', ['_'] = '_',
    ['0'] = '0', ['1'] = '1', ['2'] = '2', ['3'] = '3', ['4'] = '4', ['5'] = '5', ['6'] = '6', ['7'] = '7', ['8'] = '8', ['9'] = '9',
    ['A'] = 'a', ['B'] = 'b', ['C'] = 'c', ['D'] = 'd', ['E'] = 'e', ['F'] = 'f', ['G'] = 'g', ['H'] = 'h', ['I'] = 'i',
    ['J'] = 'j', ['K'] = 'k', ['L'] = 'l', ['M'] = 'm', ['N'] = 'n', ['O'] = 'o', ['P'] = 'p', ['Q'] = 'q', ['R'] = 'r',
    ['S'] = 's', ['T'] = 't', ['U'] = 'u', ['V'] = 'v', ['W'] = 'w', ['X'] = 'x', ['Y'] = 'y', ['Z'] = 'z',
    ['a'] = 'a', ['b'] = 'b', ['c'] = 'c', ['d'] = 'd', ['e'] = 'e', ['f'] = 'f', ['g'] = 'g', ['h'] = 'h', ['i'] = 'i',
    ['j'] = 'j', ['k'] = 'k', ['l'] = 'l', ['m'] = 'm', ['n'] = 'n', ['o'] = 'o', ['p'] = 'p', ['q'] = 'q', ['r'] = 'r',
    ['s'] = 's', ['t'] = 't', ['u'] = 'u', ['v'] = 'v', ['w'] = 'w', ['x'] = 'x', ['y'] = 'y', ['z'] = 'z',
};

// Reading. Every text that gets here ends in a line end, which is neither a blank nor a name byte: so no scan looks for the text's end.

static inline const uint8_t *past_blanks(const uint8_t *p) {
    while (*p == ' ' || *p == '\t') p++;
    return p;
}

// A run of name bytes, folded, eight to a word (the lowest byte first, as in memory on x86-64) with zeros after them, and its hash. Words are
// quicker to compare than bytes, and quicker than a call of memcmp. A run of over DPB_NAME_BYTES bytes is no name: its length is 0.
struct word {
    const uint8_t *end;
    size_t length;
    uint64_t hash;
    uint64_t words[DPB_NAME_BYTES / 8];
};

static inline uint64_t mix(uint64_t hash, uint64_t part) { return (hash ^ part) * 0x9e3779b97f4a7c15u; }

static inline void take_word(const uint8_t *p, struct word *word) {
    size_t length = 0;
    uint64_t hash = 0, part = 0;
    uint8_t b;
    while ((b = fold[p[length]]) != 0) {
        if (length == DPB_NAME_BYTES) {
            word->length = 0;
            return;
        }
        part |= (uint64_t)b << 8 * (length % 8);
        if (++length % 8 == 0) {
            word->words[length / 8 - 1] = part;
            hash = mix(hash, part);
            part = 0;
        }
    }
    if (length % 8 != 0) {
        word->words[length / 8] = part;
        hash = mix(hash, part);
    }
    word->end = p + length;
    word->length = length;
    word->hash = hash;
}

static inline bool is_name(const struct book *book, size_t a, const struct word *word) {
    if (book->length[a] != word->length) return false;
    for (size_t k = 0; k < (word->length + 7) / 8; k++) {
        if (book->names[a][k] != word->words[k]) return false;
    }
    return true;
}

// The number of that name, which joins the names where it is new; DPB_NAMES where there is no room.
static inline size_t number_of(struct book *book, const struct word *word) {
    size_t slot = word->hash >> 56; // the top byte: 2 * DPB_NAMES slots
    while (book->slots[slot] != 0) {
        size_t a = book->slots[slot] - 1;
        if (is_name(book, a, word)) return a;
        slot = (slot + 1) % (2 * DPB_NAMES);
    }
    if (book->n == DPB_NAMES) return DPB_NAMES;
    size_t a = book->n++;
    memcpy(book->names[a], word->words, DPB_NAME_BYTES); // all of them: of known length, so no call
    book->length[a] = (uint8_t)word->length;
    book->slots[slot] = (uint8_t)(a + 1);
    return a;
}

// What a line is refused under that has no listed form, by the byte where a rule does not go on; for a name byte, the caller knows.
__attribute__((cold, noinline)) static uint64_t fault_at(uint8_t b, uint64_t of_name) {
    if (fold[b] != 0) return of_name;
    return b == ':' || b == '\n' ? DPB_REFUSED_LINE : DPB_REFUSED_BARRED_BYTE;
}

// The rule at p, up to its line end, which it returns; *cause says under what the line is refused, 0 where it is not. The form of a whole line
// is judged before its room: so a line that finds none is read on. A run at whose first byte no name was taken is too long, if it is one.
static const uint8_t *read_rule(const uint8_t *p, struct book *book, uint64_t *cause) {
    struct word word;
    take_word(p, &word);
    if (word.length == 0) {
        *cause = fault_at(*p, DPB_REFUSED_LONG_NAME);
        return p;
    }
    p = past_blanks(word.end);
    if (*p++ != ':') {
        *cause = fault_at(p[-1], DPB_REFUSED_LINE);
        return p;
    }
    uint64_t lacks = 0;
    uint64_t body[BODY_WORDS] = {0, 0};
    size_t head = 0;
    if (book->m == DPB_RULES) {
        lacks = DPB_REFUSED_RULES;
    } else if ((head = number_of(book, &word)) == DPB_NAMES) {
        lacks = DPB_REFUSED_NAMES;
    }
    for (;;) {
        p = past_blanks(p);
        if (*p == '\n') break;
        take_word(p, &word);
        if (word.length == 0) {
            *cause = fault_at(*p, DPB_REFUSED_LONG_NAME);
            return p;
        }
        p = word.end;
        if (lacks) continue;
        size_t a = number_of(book, &word);
        if (a == DPB_NAMES) {
            lacks = DPB_REFUSED_NAMES;
        } else {
            body[a / WORD_BITS] |= (uint64_t)1 << a % WORD_BITS;
        }
    }
    *cause = lacks;
    if (lacks) return p;
    book->heads[book->m] = (uint8_t)head;
    book->bodies[book->m][0] = body[0];
    book->bodies[book->m][1] = body[1];
    book->m++;
    return p;
}

uint64_t read_book(const uint8_t *text, size_t text_len, struct book *book) {
    if (text_len < MARK_BYTES || memcmp(text, MARK, MARK_BYTES) != 0) return refusal(DPB_REFUSED_MARK, 0);
    if (text[text_len - 1] != '\n') return refusal(DPB_REFUSED_NO_LINE_END, 0);
    book->n = 0;
    book->m = 0;
    memset(book->slots, 0, sizeof book->slots);
    const uint8_t *end = text + text_len;
    uint64_t line = 2;
    for (const uint8_t *p = text + MARK_BYTES; p < end; p++, line++) {
        if (*p == '#') {
            p = memchr(p, '\n', (size_t)(end - p));
            continue;
        }
        p = past_blanks(p);
        if (*p == '\n') continue;
        uint64_t cause;
        p = read_rule(p, book, &cause);
        if (cause) return refusal(cause, line);
    }
    return 0;
}

uint64_t judge_call(size_t text_len, uint64_t folds, size_t listing_len) {
    if (listing_len < DPB_LISTING_BYTES) return refusal(DPB_REFUSED_SHORT_AREA, 0);
    if (text_len > DPB_TEXT_BYTES) return refusal(DPB_REFUSED_LONG_TEXT, 0);
    if (folds > DPB_FOLDS) return refusal(DPB_REFUSED_FOLDS, 0);
    return 0;
}

// Standardising.

typedef uint64_t row[ROW_WORDS];

static inline void set_bit(row r, size_t a) { r[a / WORD_BITS] |= (uint64_t)1 << a % WORD_BITS; }

static inline void only(row r, size_t a) {
    memset(r, 0, sizeof(row));
    set_bit(r, a);
}

size_t count_atoms(const struct book *book, uint16_t rules_of[DPB_NAMES]) {
    memset(rules_of, 0, book->n * sizeof *rules_of);
    for (size_t j = 0; j < book->m; j++) rules_of[book->heads[j]]++;
    size_t atoms = book->n;
    for (size_t a = 0; a < book->n; a++) {
        if (rules_of[a] > 1) atoms += rules_of[a];
    }
    return atoms;
}

// The "all" rows of all atoms, the "any" rows of the names with several rules (no other atom has one), and the start set.
static void standardise(const struct book *book, const uint16_t rules_of[DPB_NAMES], row *all, row *any, row start) {
    memset(start, 0, sizeof(row));
    for (size_t a = 0; a < book->n; a++) {
        if (rules_of[a] == 1) continue;
        only(all[a], a);
        memset(any[a], 0, sizeof(row));
    }
    size_t helper = book->n;
    for (size_t j = 0; j < book->m; j++) {
        size_t home = book->heads[j];
        if (rules_of[home] > 1) {
            set_bit(any[home], helper);
            home = helper++;
        }
        if ((book->bodies[j][0] | book->bodies[j][1]) == 0) {
            only(all[home], home);
            set_bit(start, home);
        } else {
            all[home][0] = book->bodies[j][0];
            all[home][1] = book->bodies[j][1];
            all[home][2] = 0;
            all[home][3] = 0;
        }
    }
}

// Folds: each row from the rows before it, by turns into the spare. The last rows stay where they are.

static void fold_rows(row *from, row *to, size_t atoms) {
    for (size_t i = 0; i < atoms; i++) {
        uint64_t r0 = 0, r1 = 0, r2 = 0, r3 = 0;
        for (size_t k = 0; k < ROW_WORDS; k++) {
            for (uint64_t rest = from[i][k]; rest != 0; rest &= rest - 1) {
                const uint64_t *other = from[k * WORD_BITS + (size_t)__builtin_ctzll(rest)];
                r0 |= other[0];
                r1 |= other[1];
                r2 |= other[2];
                r3 |= other[3];
            }
        }
        to[i][0] = r0;
        to[i][1] = r1;
        to[i][2] = r2;
        to[i][3] = r3;
    }
}

static row *fold_times(row *all, row *spare, size_t atoms, uint64_t folds) {
    for (uint64_t k = 0; k < folds; k++) {
        fold_rows(all, spare, atoms);
        row *folded = spare;
        spare = all;
        all = folded;
    }
    return all;
}

// Rounds.

static inline bool within(const row a, const row b) {
    return ((a[0] & ~b[0]) | (a[1] & ~b[1]) | (a[2] & ~b[2]) | (a[3] & ~b[3])) == 0;
}

static inline bool meets(const row a, const row b) {
    return ((a[0] & b[0]) | (a[1] & b[1]) | (a[2] & b[2]) | (a[3] & b[3])) != 0;
}

// One round: `next` gets the set after v, word by word. Only a name with several rules has an "any" row.
static void make_round(row *all, row *any, const uint16_t rules_of[DPB_NAMES], size_t n, size_t atoms, const row v, row next) {
    for (size_t k = 0; k < ROW_WORDS; k++) {
        uint64_t word = 0;
        size_t start = k * WORD_BITS, end = atoms < start + WORD_BITS ? atoms : start + WORD_BITS;
        for (size_t i = start; i < end; i++) {
            bool in = i < n && rules_of[i] > 1 ? meets(any[i], v) : within(all[i], v);
            word |= (uint64_t)in << i % WORD_BITS;
        }
        next[k] = word;
    }
}

// The rounds from the start set in v, which gets the last set; the last round is counted.
static size_t run_rounds(row *all, row *any, const uint16_t rules_of[DPB_NAMES], size_t n, size_t atoms, row v) {
    row next;
    for (size_t rounds = 1;; rounds++) {
        make_round(all, any, rules_of, n, atoms, v, next);
        if (memcmp(v, next, sizeof(row)) == 0) return rounds;
        memcpy(v, next, sizeof(row));
    }
}

// Listing.

uint8_t *put_field(uint8_t *to, const char *field, size_t number) {
    size_t length = strlen(field);
    memcpy(to, field, length);
    to += length;
    if (number >= 100) *to++ = (uint8_t)('0' + number / 100);
    if (number >= 10) *to++ = (uint8_t)('0' + number / 10 % 10);
    *to++ = (uint8_t)('0' + number % 10);
    return to;
}

uint8_t *put_held(uint8_t *to, const struct book *book, const uint64_t held[BODY_WORDS]) {
    for (size_t k = 0; k < BODY_WORDS; k++) {
        for (uint64_t rest = held[k]; rest != 0; rest &= rest - 1) {
            size_t a = k * WORD_BITS + (size_t)__builtin_ctzll(rest);
            memcpy(to, book->names[a], DPB_NAME_BYTES); // the area has room for as many lines of full length, after some 50 bytes
            to += book->length[a];
            *to++ = '\n';
        }
    }
    return to;
}

// The names among the atoms of v.
static void names_of(const row v, size_t n, uint64_t held[BODY_WORDS]) {
    held[0] = n < WORD_BITS ? v[0] & (((uint64_t)1 << n) - 1) : v[0];
    held[1] = n < WORD_BITS ? 0 : n < 2 * WORD_BITS ? v[1] & (((uint64_t)1 << (n - WORD_BITS)) - 1) : v[1];
}

static void write_listing(const struct book *book, const row v, uint64_t folds, size_t rounds, uint8_t *listing) {
    uint64_t held[BODY_WORDS];
    names_of(v, book->n, held);
    size_t count = (size_t)(__builtin_popcountll(held[0]) + __builtin_popcountll(held[1]));
    uint8_t *to = put_field(listing, LISTED " names=", book->n);
    to = put_field(to, " held=", count);
    to = put_field(to, " folds=", folds);
    to = put_field(to, " rounds=", rounds);
    *to++ = '\n';
    to = put_held(to, book, held);
    memset(to, 0, (size_t)(listing + DPB_LISTING_BYTES - to));
}

uint64_t baseline_list(const uint8_t *text, size_t text_len, uint64_t folds, uint8_t *listing, size_t listing_len) {
    uint64_t refused = judge_call(text_len, folds, listing_len);
    if (refused) return refused;
    struct book book;
    refused = read_book(text, text_len, &book);
    if (refused) return refused;
    uint16_t rules_of[DPB_NAMES];
    size_t atoms = count_atoms(&book, rules_of);
    if (atoms > DPB_ATOMS) return refusal(DPB_REFUSED_ATOMS, 0);
    row all[DPB_ATOMS], spare[DPB_ATOMS], any[DPB_NAMES], v;
    standardise(&book, rules_of, all, any, v);
    row *folded = fold_times(all, spare, atoms, folds);
    size_t rounds = run_rounds(folded, any, rules_of, book.n, atoms, v);
    write_listing(&book, v, folds, rounds, listing);
    return 0;
}
