/*
 * The header against the archive: what dpb_list answers, and every byte that
 * it leaves. Arguments are pairs of files, a book and its listing, with as many folds as are allowed.
 */
#include "calls.h"

#include <stdio.h>

int main(int argc, char **argv)
{
    size_t stack_used;

    setvbuf(stdout, NULL, _IOLBF, 0); /* what failed is seen even where the run breaks off */
    catch_faults_and_delays();
    known();
    limits();
    refusals();
    hosting();
    walking();
    stack_used = stack();
    for (int i = 1; i + 1 < argc; i += 2)
        book_in_file(argv[i], argv[i + 1]);
    printf("calls: %lu checks, %lu failed; the call took %zu of %d bytes of stack\n",
           checks, failures, stack_used, DPB_STACK_BYTES);
    return failures != 0;
}
