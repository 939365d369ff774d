/* How a host may call: with null pointers and any lengths, in areas of any alignment and contents, from several threads at once. */
#define _DEFAULT_SOURCE
#include "calls.h"

#include <errno.h>
#include <pthread.h>
#include <stdlib.h>
#include <string.h>
#include <sys/mman.h>
#include <unistd.h>

/* ---- pointers */

static void nulls(void)
{
    struct text *t = book_of(PRINTED), *none = empty();
    uint8_t *listing = block(DPB_LISTING_BYTES);
    struct sample s = sample("text NULL, 0", none, FOLDS);

    s.want = REFUSED(REFUSED_MARK, 0);
    run(&s, NULL, listing, 0);
    s.label = "text NULL, 0 and one fold too many";
    s.folds = FOLDS + 1;
    s.want = REFUSED(REFUSED_FOLDS, 0);
    run(&s, NULL, listing, 0);
    s = sample("listing NULL, 0", t, FOLDS);
    s.room = 0;
    s.want = REFUSED(REFUSED_SHORT_AREA, 0);
    run(&s, s.text, NULL, 0);
    s = sample("text NULL, 0 and listing NULL, 0", none, 8);
    s.room = 0;
    s.want = REFUSED(REFUSED_SHORT_AREA, 0);
    run(&s, NULL, NULL, 0);
    free(listing);
}

static void skews(void)
{
    struct text *t = book_of("Begin:/end.1: begin/" LONG_NAME ": begin end.1");
    struct sample s = sample("misaligned areas", t, 8);

    s.listing = "DPL 0001 names=3 held=3 folds=8 rounds=2\nbegin\nend.1\n" LONG_NAME "\n";
    for (size_t skew = 1; skew < 16; skew++)
        in_heap(&s, skew, 0);
}

/* A listing area that nothing was written to: what it held must not matter. */
static void fresh_area(void)
{
    struct text *t = book_of(PRINTED);
    struct sample s = sample("listing area never written", t, FOLDS);
    uint8_t *listing = block(DPB_LISTING_BYTES);
    uint64_t came = 0;

    s.listing = PRINTED_FOLDS;
    if (answered(&s, s.text, listing, &came)) {
        check_result(&s, came);
        check_area(&s, listing, 0);
    }
    free(listing);
}

/* ---- lengths */

#define OVER_32 ((size_t)1 << 32)
#define OVER_63 ((size_t)1 << 63)
#define LONG_TEXT REFUSED(REFUSED_LONG_TEXT, 0)
#define MANY_FOLDS REFUSED(REFUSED_FOLDS, 0)
#define SHORT_AREA REFUSED(REFUSED_SHORT_AREA, 0)

/*
 * Areas, lengths and folds are judged without a look at the text: here it cannot be read.
 * Some of the lengths are over the limit only as long as no bit of them is lost.
 */
static void unread(void)
{
    static const struct sample samples[] = {
        {"unread text, one byte too long", NULL, TEXT_BYTES + 1, FOLDS, LISTING_BYTES, LONG_TEXT, ""},
        {"unread text of 2^16 bytes and a mark's", NULL, 65536 + MARK_BYTES, FOLDS, LISTING_BYTES, LONG_TEXT, ""},
        {"unread text of 2^32 bytes", NULL, OVER_32, FOLDS, LISTING_BYTES, LONG_TEXT, ""},
        {"unread text of 2^32 bytes and a mark's", NULL, OVER_32 + MARK_BYTES, FOLDS, LISTING_BYTES, LONG_TEXT, ""},
        {"unread text of 2^63 bytes and a mark's", NULL, OVER_63 + MARK_BYTES, FOLDS, LISTING_BYTES, LONG_TEXT, ""},
        {"unread text of 2^64 - 1 bytes", NULL, SIZE_MAX, FOLDS, LISTING_BYTES, LONG_TEXT, ""},
        {"unread text of 2^32 bytes and a mark's, one fold too many", NULL, OVER_32 + MARK_BYTES, FOLDS + 1, LISTING_BYTES, LONG_TEXT, ""},
        {"unread text of one byte, one fold too many", NULL, 1, FOLDS + 1, LISTING_BYTES, MANY_FOLDS, ""},
        {"unread text of a mark's bytes, one fold too many", NULL, MARK_BYTES, FOLDS + 1, LISTING_BYTES, MANY_FOLDS, ""},
        {"unread text as long as can be, one fold too many", NULL, TEXT_BYTES, FOLDS + 1, LISTING_BYTES, MANY_FOLDS, ""},
        {"unread text of a mark's bytes, 2^32 folds", NULL, MARK_BYTES, OVER_32, LISTING_BYTES, MANY_FOLDS, ""},
        {"unread text of a mark's bytes, no listing area", NULL, MARK_BYTES, FOLDS, 0, SHORT_AREA, ""},
        {"unread text of a mark's bytes, listing area of one byte", NULL, MARK_BYTES, FOLDS, 1, SHORT_AREA, ""},
        {"unread text of a mark's bytes, listing area one byte short", NULL, MARK_BYTES, FOLDS, LISTING_BYTES - 1, SHORT_AREA, ""},
        {"unread text of 2^32 bytes and a mark's, area one byte short, one fold too many", NULL, OVER_32 + MARK_BYTES, FOLDS + 1,
         LISTING_BYTES - 1, SHORT_AREA, ""},
    };
    uint8_t *text = pages(TEXT_ROOM, PROT_NONE);
    uint8_t *listing = block(DPB_LISTING_BYTES);

    for (size_t i = 0; i < COUNT(samples); i++) {
        run(&samples[i], text, listing, 0);
        run(&samples[i], text, listing, 0xFF);
    }
    munmap(text, TEXT_ROOM);
    free(listing);
}

/* how many pages of an area are in use */
static size_t used(uint8_t *area, size_t len)
{
    size_t count = len / (size_t)sysconf(_SC_PAGESIZE), in_use = 0;
    unsigned char *each = block(count);

    if (mincore(area, len, each) != 0)
        give_up("mincore");
    for (size_t i = 0; i < count; i++)
        in_use += each[i] & 1;
    free(each);
    return in_use;
}

/* A listing area whose length 32 bits do not hold. Its first pages are looked at; past them none may have come into use. */
static void large_area(void)
{
    uint8_t *listing = pages(OVER_32, PROT_READ | PROT_WRITE);
    struct sample s = sample("listing area of 2^32 bytes", book_of(PRINTED), FOLDS), seen = s;
    uint64_t came = 0;

    madvise(listing, OVER_32, MADV_NOHUGEPAGE); /* refused where the system has none */
    s.room = OVER_32;
    seen.room = 2 * (size_t)sysconf(_SC_PAGESIZE);
    seen.listing = PRINTED_FOLDS;
    fill(listing, seen.room, 0x5A);
    if (answered(&s, s.text, listing, &came)) {
        size_t more = used(listing + seen.room, s.room - seen.room);

        check_result(&seen, came);
        check_area(&seen, listing, 0x5A);
        check(more == 0, s.label, "expected no page in use past %zu bytes, came %zu", seen.room, more);
    }
    munmap(listing, OVER_32);
}

/* ---- threads */

#define THREADS 4
#define TURNS 100

struct answer {
    uint64_t result;
    uint8_t area[DPB_LISTING_BYTES];
};

struct worker {
    pthread_t thread;
    unsigned number;
    struct answer *answers; /* one for each sample: the last, or the first that was wrong */
};

static struct sample shared[6];
static pthread_barrier_t together;

static int right(const struct sample *s, const struct answer *a, uint8_t mask)
{
    uint8_t want[DPB_LISTING_BYTES];

    fill_as_left(s, want, mask);
    return a->result == s->want && memcmp(a->area, want, sizeof want) == 0;
}

static void *work(void *own)
{
    struct worker *w = own;
    int wrong[COUNT(shared)] = {0};

    pthread_barrier_wait(&together);
    for (unsigned turn = 0; turn < TURNS * COUNT(shared); turn++) {
        size_t i = (turn + w->number) % COUNT(shared);
        const struct sample *s = &shared[i];
        struct answer *a = &w->answers[i];

        if (wrong[i])
            continue;
        fill(a->area, s->room, (uint8_t)w->number);
        a->result = dpb_list(s->text, s->len, s->folds, a->area, s->room);
        wrong[i] = !right(s, a, (uint8_t)w->number);
    }
    return NULL;
}

/* Books for threads; the texts are shared by all of them. */
static void share(void)
{
    static struct text texts[COUNT(shared)];

    texts[0] = *book_of(PRINTED);
    texts[1] = *book_of("d:c/c:b/b:a/a:");
    texts[2] = *book_of("a:/b:c/c:b/d:a e/oops");
    texts[3] = *marked();
    chained_heads(&texts[3]);
    add(&texts[3], "g:\n");
    texts[4] = *book_of("x:y z/y:");
    texts[5] = *marked();
    long_names(&texts[5]);
    for (size_t i = 0; i < COUNT(shared); i++)
        shared[i] = sample("on several threads", &texts[i], FOLDS);
    shared[0].listing = PRINTED_FOLDS;
    shared[1].folds = 0;
    shared[1].listing = "DPL 0001 names=4 held=4 folds=0 rounds=4\nd\nc\nb\na\n";
    shared[2].want = REFUSED(REFUSED_LINE, 6);
    shared[3].want = REFUSED(REFUSED_ATOMS, 0);
    shared[4].folds = 8;
    shared[4].listing = "DPL 0001 names=3 held=1 folds=8 rounds=1\ny\n";
    shared[5].listing = long_listing(FOLDS, ROUNDS_FOLDED);
}

static void threads(void)
{
    struct worker workers[THREADS];

    share();
    if (pthread_barrier_init(&together, NULL, THREADS) != 0)
        give_up("pthread_barrier_init");
    await("on several threads"); /* all their calls together */
    for (unsigned i = 0; i < THREADS; i++) {
        workers[i].number = i;
        workers[i].answers = block(COUNT(shared) * sizeof *workers[i].answers);
        errno = pthread_create(&workers[i].thread, NULL, work, &workers[i]);
        if (errno)
            give_up("pthread_create");
    }
    for (unsigned i = 0; i < THREADS; i++) {
        pthread_join(workers[i].thread, NULL);
        for (size_t j = 0; j < COUNT(shared); j++) {
            check_result(&shared[j], workers[i].answers[j].result);
            check_area(&shared[j], workers[i].answers[j].area, (uint8_t)i);
        }
        free(workers[i].answers);
    }
    ended();
    pthread_barrier_destroy(&together);
}

void hosting(void)
{
    nulls();
    skews();
    fresh_area();
    unread();
    large_area();
    threads();
}
