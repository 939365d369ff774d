/*
 * The header in every standard that it is for: C from C99 on, and C++. This
 * file is both languages. It prints the words of the refusals 0 to 15, then the
 * walk over the names of the printed book; what is to come stands in
 * tests/native-calls.
 */
#include "dpb.h"

#include <stdio.h>

int main(void)
{
    static const uint8_t text[] = "DPB 0001\np:q\nq:p r\nq:s\ns:\n";
    uint8_t listing[DPB_LISTING_BYTES];
    const char *name;
    uint64_t result;
    unsigned number;

    for (number = 0; number <= 15; number++)
        printf("%u %s\n", number, dpb_words(number));
    result = dpb_list(text, sizeof text - 1, DPB_FOLDS, listing, sizeof listing);
    printf("refusal %u line %u\n", dpb_refusal(result), dpb_line(result));
    if (result != DPB_LISTED)
        return 1;
    for (name = dpb_first_name(listing); name; name = dpb_next_name(name))
        printf("%.*s\n", (int)dpb_name_length(name), name);
    printf("q %d r %d\n", dpb_holds(listing, "q"), dpb_holds(listing, "r"));
    return 0;
}
