// Times two archives of the call and the baseline in one program, by turns: what a change costs, apart from how fast the machine is at the moment.
#include "timing.h"

#include <stdio.h>
#include <stdlib.h>
#include <string.h>

// The call of each archive, under a name of its own (bench/turns gives it).
call dpb_list_before, dpb_list_after;

static call *const calls[3] = {dpb_list_before, dpb_list_after, baseline_list};

// All answer alike, or there is nothing to compare.
static void demand_alike(const struct shape *shape, const struct text *text, uint64_t folds) {
    static uint8_t listings[3][DPB_LISTING_BYTES];
    uint64_t numbers[3];
    for (size_t c = 0; c < 3; c++) numbers[c] = calls[c](text->bytes, text->length, folds, listings[c], sizeof listings[c]);
    for (size_t c = 1; c < 3; c++) {
        if (numbers[0] == numbers[c] && (numbers[0] != 0 || memcmp(listings[0], listings[c], sizeof listings[0]) == 0)) continue;
        fprintf(stderr, "the calls do not agree: %s, %d folds\n", shape->name, (int)folds);
        exit(1);
    }
}

int main(void) {
    time_shapes(calls, 3, demand_alike);
    return 0;
}
