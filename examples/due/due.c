/*
 * Which jobs are due: lists the rule books named on the command line, once, as
 * a build farm would before a shift. examples/due/build builds it. A book has
 * names of all kinds; jobs are those that begin with "job.", as in books/.
 *
 *   due [--end NAME] FILE..
 *
 * Standard output: for each book its file name and a colon, then the jobs that
 * are due, one on a line behind a tab. Standard error: books without a job that
 * is due; what was refused, with file and line; what could not be read. Status 0
 * where all books were listed, else 1.
 *
 * A book that was cut off after a line end is a shorter book, which nothing
 * refuses, and the jobs that it lacks are silently not due. The remedy is a last
 * rule without conditions, such as "book.end:", that no other rule of the book
 * has for its head. Given --end book.end, a book whose listing lacks that name
 * counts as cut off: nothing of it is printed, and the status is 1. NAME is in
 * small letters, as in listings.
 */
#include "dpb.h"

#include <errno.h>
#include <stdio.h>
#include <string.h>

#define JOB "job." /* how the names of jobs begin */

/* One byte more than a book may have, so that a longer file is refused and not cut. */
struct book {
    size_t len;
    uint8_t bytes[DPB_TEXT_BYTES + 1];
};

/* 0, or -1 with the cause in errno */
static int read_book(const char *file, struct book *book)
{
    FILE *in = fopen(file, "rb");
    int cause = 0;

    if (!in)
        return -1;
    errno = 0;
    book->len = fread(book->bytes, 1, sizeof book->bytes, in);
    if (ferror(in))
        cause = errno ? errno : EIO;
    fclose(in);
    errno = cause;
    return cause ? -1 : 0;
}

static void report(const char *file, uint64_t result)
{
    fprintf(stderr, "%s:", file);
    if (dpb_line(result))
        fprintf(stderr, "%u:", dpb_line(result));
    fprintf(stderr, " %s (refusal %u)\n", dpb_words(dpb_refusal(result)), dpb_refusal(result));
}

static void print_due(const char *file, const uint8_t *listing)
{
    const char *name;
    int jobs = 0;

    printf("%s:\n", file);
    for (name = dpb_first_name(listing); name; name = dpb_next_name(name))
        if (strncmp(name, JOB, sizeof JOB - 1) == 0) {
            printf("\t%.*s\n", (int)dpb_name_length(name), name);
            jobs++;
        }
    if (jobs == 0)
        fprintf(stderr, "%s: no job is due\n", file);
}

/* 1 where the book was listed; end: the name that its listing must have, or NULL */
static int list_book(const char *file, const char *end)
{
    struct book book;
    uint8_t listing[DPB_LISTING_BYTES];
    uint64_t result;

    if (read_book(file, &book) != 0) {
        fprintf(stderr, "%s: cannot be read: %s\n", file, strerror(errno));
        return 0;
    }
    result = dpb_list(book.bytes, book.len, DPB_FOLDS, listing, sizeof listing);
    if (result != DPB_LISTED) {
        report(file, result);
        return 0;
    }
    if (end && !dpb_holds(listing, end)) {
        fprintf(stderr, "%s: %s does not hold: the book was cut off, or lacks it as its last rule\n", file, end);
        return 0;
    }
    print_due(file, listing);
    return 1;
}

int main(int argc, char **argv)
{
    const char *end = NULL;
    int first = 1, failed = 0;

    if (argc > 1 && strcmp(argv[1], "--end") == 0) {
        end = argv[2];
        first = 3;
    }
    if (first >= argc) {
        fprintf(stderr, "usage: due [--end NAME] FILE..\n");
        return 1;
    }
    for (int i = first; i < argc; i++)
        if (!list_book(argv[i], end))
            failed = 1;
    /* a list that was lost on its way is no list */
    if (fflush(stdout) != 0 || ferror(stdout)) {
        fprintf(stderr, "due: standard output cannot be written\n");
        failed = 1;
    }
    return failed;
}
