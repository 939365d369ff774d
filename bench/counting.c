// A second yardstick: held names by counters and a work list, in time linear in the book. It makes no rows, no folds and no rounds, so its
// head line has neither folds nor rounds. It reads with the baseline's reader, and refuses what document 01 refuses.
#include "book.h"

#include <string.h>

// A body's name takes two bytes of text or more with its blank, so there are never more of them than this.
enum { USES = DPB_TEXT_BYTES / 2 };

// Which rules wait for each name (use[from[a]] up to use[from[a + 1]]), and for how many names each rule waits.
struct waiting {
    uint16_t from[DPB_NAMES + 2];
    uint16_t use[USES];
    uint8_t waits[DPB_RULES];
};

// The names of a body, by rising number.
#define EACH_NAME(body, a)                                                     \
    for (size_t k_ = 0; k_ < BODY_WORDS; k_++)                                         \
        for (uint64_t rest_ = (body)[k_], a; rest_ != 0 && (a = k_ * WORD_BITS + (uint64_t)__builtin_ctzll(rest_), 1); rest_ &= rest_ - 1)

// The rules are sorted by the names they wait for: count, add up, place.
static void sort_uses(const struct book *book, struct waiting *w) {
    memset(w->from, 0, sizeof w->from);
    for (size_t j = 0; j < book->m; j++) {
        uint8_t waits = 0;
        EACH_NAME(book->bodies[j], a) {
            w->from[a + 2]++;
            waits++;
        }
        w->waits[j] = waits;
    }
    for (size_t a = 2; a < DPB_NAMES + 2; a++) w->from[a] = (uint16_t)(w->from[a] + w->from[a - 1]);
    for (size_t j = 0; j < book->m; j++) {
        EACH_NAME(book->bodies[j], a) w->use[w->from[a + 1]++] = (uint16_t)j;
    }
}

// A name joins the held ones, and the work list where it is new.
static size_t hold(size_t a, uint64_t held[BODY_WORDS], uint8_t *todo, size_t count) {
    if (held[a / WORD_BITS] >> a % WORD_BITS & 1) return count;
    held[a / WORD_BITS] |= (uint64_t)1 << a % WORD_BITS;
    todo[count] = (uint8_t)a;
    return count + 1;
}

// The held names; returns how many there are. The work list keeps what is done: each name is on it once.
static size_t solve(const struct book *book, struct waiting *w, uint64_t held[BODY_WORDS]) {
    uint8_t todo[DPB_NAMES];
    size_t count = 0;
    held[0] = held[1] = 0;
    for (size_t j = 0; j < book->m; j++) {
        if (w->waits[j] == 0) count = hold(book->heads[j], held, todo, count);
    }
    for (size_t done = 0; done < count; done++) {
        size_t a = todo[done];
        for (size_t u = w->from[a]; u < w->from[a + 1]; u++) {
            size_t j = w->use[u];
            if (--w->waits[j] == 0) count = hold(book->heads[j], held, todo, count);
        }
    }
    return count;
}

uint64_t counting_list(const uint8_t *text, size_t text_len, uint64_t folds, uint8_t *listing, size_t listing_len) {
    uint64_t refused = judge_call(text_len, folds, listing_len);
    if (refused) return refused;
    struct book book;
    refused = read_book(text, text_len, &book);
    if (refused) return refused;
    uint16_t rules_of[DPB_NAMES];
    if (count_atoms(&book, rules_of) > DPB_ATOMS) return refusal(DPB_REFUSED_ATOMS, 0);
    struct waiting waiting;
    sort_uses(&book, &waiting);
    uint64_t held[BODY_WORDS];
    size_t count = solve(&book, &waiting, held);
    uint8_t *to = put_field(listing, LISTED " names=", book.n);
    to = put_field(to, " held=", count);
    *to++ = '\n';
    to = put_held(to, &book, held);
    memset(to, 0, (size_t)(listing + DPB_LISTING_BYTES - to));
    return 0;
}
