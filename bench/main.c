// Times the engine's call against the two C programs, in one run, by turns.
//
// What is cleared: the engine's call zeroes its own areas (names, heads, bodies, three areas of rows, model) on
// every call, and what a book leaves unused once more, as document 01 has it for lent areas; that is in its time. The C programs clear
// nothing that they write before they read it. All three zero the listing's tail. Nothing is cleared between calls here.
#include "timing.h"

#include <stdio.h>
#include <stdlib.h>
#include <string.h>

static call *const calls[3] = {dpb_list, baseline_list, counting_list};
static const char *const call_names[3] = {"dpb_list", "baseline", "counting"};

// Where the names begin: after the head line.
static const uint8_t *names_in(const uint8_t *listing) {
    const uint8_t *end = memchr(listing, '\n', DPB_LISTING_BYTES);
    return end ? end + 1 : listing;
}

// The counting program's head line is shorter, so its names are compared up to the first zero byte.
static bool same_names(const uint8_t *a, const uint8_t *b) {
    const char *x = (const char *)names_in(a), *y = (const char *)names_in(b);
    return strcmp(x, y) == 0;
}

// Whether the three agree: the same number; the same bytes from the first two, whatever was there; the same names from the third.
static bool agree(const uint8_t *text, size_t length, uint64_t folds, size_t listing_len) {
    static uint8_t listings[3][DPB_LISTING_BYTES + 1];
    uint64_t numbers[3];
    memset(listings, 0xa5, sizeof listings);
    for (size_t c = 0; c < 3; c++) numbers[c] = calls[c](text, length, folds, listings[c], listing_len);
    if (numbers[0] != numbers[1] || numbers[0] != numbers[2]) return false;
    if (memcmp(listings[0], listings[1], sizeof listings[0]) != 0) return false;
    if (numbers[0] != 0) return memcmp(listings[0], listings[2], sizeof listings[0]) == 0;
    return same_names(listings[0], listings[2]);
}

static void demand(bool holds, const char *what, uint64_t folds) {
    if (holds) return;
    printf("the calls do not agree: %s, %d folds\n", what, (int)folds);
    exit(1);
}

// Spoilt books: bytes of a shape changed, moved or cut off, so that refusals are compared too.
static void compare_spoilt(void) {
    static const char bytes[] = "a:b #\n\tZ.\r:  \n";
    static struct text text;
    static uint8_t spoilt[DPB_TEXT_BYTES + 1];
    size_t compared = 0, accepted = 0;
    srand(1);
    for (size_t s = 0; s < shape_count; s++) {
        shapes[s].make(&text);
        for (size_t turn = 0; turn < 2000; turn++) {
            size_t length = text.length;
            memcpy(spoilt, text.bytes, length);
            if (turn % 4 == 0) length = (size_t)rand() % (length + 1);
            if (turn % 8 == 1) { // a part moved to just after the mark: some rules go, some stand twice
                size_t start = (size_t)rand() % length;
                memmove(spoilt + MARK_BYTES, spoilt + start, length - start < MARK_BYTES ? 0 : length - start - MARK_BYTES);
            }
            for (size_t k = turn % 3; k > 0 && length > 0; k--) {
                spoilt[(size_t)rand() % length] = (uint8_t)bytes[(size_t)rand() % (sizeof bytes - 1)];
            }
            if (length > 0 && turn % 16 != 0) spoilt[length - 1] = '\n';
            uint64_t folds = turn % (DPB_FOLDS + 1);
            demand(agree(spoilt, length, folds, DPB_LISTING_BYTES), "a spoilt book", folds);
            compared++;
            uint8_t listing[DPB_LISTING_BYTES];
            accepted += baseline_list(spoilt, length, folds, listing, sizeof listing) == 0;
        }
        demand(agree(text.bytes, text.length, DPB_FOLDS + 1, DPB_LISTING_BYTES), shapes[s].name, DPB_FOLDS + 1);
        demand(agree(text.bytes, text.length, DPB_FOLDS, DPB_LISTING_BYTES - 1), "a short listing", DPB_FOLDS);
    }
    demand(agree(spoilt, DPB_TEXT_BYTES + 1, DPB_FOLDS, DPB_LISTING_BYTES), "a long text", DPB_FOLDS);
    printf("compared: %zu spoilt books, %zu of them accepted; the same numbers and listings\n", compared, accepted);
}

// What is timed is agreed on, and refused only where a shape is for reading alone.
static void demand_shape(const struct shape *shape, const struct text *text, uint64_t folds) {
    uint8_t listing[DPB_LISTING_BYTES];
    demand(agree(text->bytes, text->length, folds, DPB_LISTING_BYTES), shape->name, folds);
    uint64_t number = baseline_list(text->bytes, text->length, folds, listing, sizeof listing);
    demand((number != 0) == shape->reading, shape->name, folds);
}

static int usage(void) {
    fprintf(stderr, "usage: bench compare | times | dpb_list|baseline|counting SHAPE FOLDS TIMES\n");
    return 2;
}

// Calls one program on one shape over and over, for a profiler.
static int repeat(const char *who, size_t s, uint64_t folds, size_t times) {
    static struct text text;
    for (size_t c = 0; c < 3; c++) {
        if (strcmp(who, call_names[c]) != 0 || s >= shape_count) continue;
        shapes[s].make(&text);
        sample(calls[c], &text, folds, times);
        return 0;
    }
    return usage();
}

int main(int argc, char **argv) {
    if (argc == 2 && strcmp(argv[1], "compare") == 0) {
        compare_spoilt();
        return 0;
    }
    if (argc == 2 && strcmp(argv[1], "times") == 0) {
        time_shapes(calls, 3, demand_shape);
        return 0;
    }
    if (argc == 5) return repeat(argv[1], strtoul(argv[2], NULL, 10), strtoul(argv[3], NULL, 10), strtoul(argv[4], NULL, 10));
    return usage();
}
