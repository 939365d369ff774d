/*
 * Where text and listing lie, and a call between them.
 *
 * Each sample is called four times: in heap blocks of exactly its sizes, with
 * two fillings of the listing area that differ in every bit, so that no write
 * goes unseen; and between pages that cannot be touched, with the text
 * read-only, so that a byte too far faults in a program that nothing watches.
 */
#define _DEFAULT_SOURCE
#include "calls.h"

#include <errno.h>
#include <setjmp.h>
#include <signal.h>
#include <stdlib.h>
#include <string.h>
#include <sys/mman.h>
#include <unistd.h>

/* ---- faults and delays */

#define PATIENCE 60 /* seconds for one call; the slowest takes a small part of one, under valgrind too */

static const char *volatile awaited = "";

void await(const char *label)
{
    awaited = label;
    alarm(PATIENCE);
}

void ended(void)
{
    alarm(0);
}

static void late(int number)
{
    static const char words[] = "FAILED: expected an answer, came none in time: ";

    (void)number;
    if (write(STDOUT_FILENO, words, sizeof words - 1) < 0 || write(STDOUT_FILENO, awaited, strlen(awaited)) < 0 ||
        write(STDOUT_FILENO, "\n", 1) < 0)
        _exit(2);
    _exit(1);
}

/* A fault within the call is a failed check, not the end of the run. */
static _Thread_local sigjmp_buf back;
static _Thread_local volatile sig_atomic_t calling;
static _Thread_local void *volatile faulted_at;

static void faulted(int number, siginfo_t *info, void *context)
{
    (void)context;
    if (!calling) {
        signal(number, SIG_DFL);
        raise(number);
        return;
    }
    faulted_at = info->si_addr;
    siglongjmp(back, 1);
}

void catch_faults_and_delays(void)
{
    static uint8_t handlers[1 << 16]; /* a stack of their own: valgrind lends none below that of main */
    stack_t own = {.ss_sp = handlers, .ss_size = sizeof handlers};
    struct sigaction action;

    memset(&action, 0, sizeof action);
    action.sa_sigaction = faulted;
    action.sa_flags = SA_SIGINFO | SA_ONSTACK;
    sigemptyset(&action.sa_mask);
    if (sigaltstack(&own, NULL) != 0 || sigaction(SIGSEGV, &action, NULL) != 0 || sigaction(SIGBUS, &action, NULL) != 0)
        give_up("sigaction");
    signal(SIGALRM, late);
}

/* ---- one call, and all that it leaves */

int called(const struct sample *s, const uint8_t *text, uint8_t *listing, uint64_t *result, void **fault)
{
    volatile int returned = 0; /* kept over the jump back */

    await(s->label);
    if (sigsetjmp(back, 1) == 0) {
        calling = 1;
        *result = dpb_list(text, s->len, s->folds, listing, s->room);
        returned = 1;
    }
    calling = 0;
    ended();
    *fault = faulted_at;
    return returned;
}

int answered(const struct sample *s, const uint8_t *text, uint8_t *listing, uint64_t *result)
{
    void *fault;

    if (called(s, text, listing, result, &fault))
        return 1;
    check(0, s->label, "expected an answer, came a fault at %p; text is %p + %zu, listing %p + %zu",
          fault, (const void *)text, s->len, (void *)listing, s->room);
    return 0;
}

void run(const struct sample *s, const uint8_t *text, uint8_t *listing, uint8_t mask)
{
    uint64_t came = 0;

    if (listing)
        fill(listing, s->room, mask);
    errno = 77;
    if (!answered(s, text, listing, &came))
        return;
    check(errno == 77, s->label, "expected errno to stay 77, came %d", errno);
    check_result(s, came);
    if (listing)
        check_area(s, listing, mask);
    if (s->text)
        check_text(s, text);
}

/* ---- in heap blocks */

void *block(size_t bytes)
{
    void *got = malloc(bytes);

    if (!got && bytes)
        give_up("malloc");
    return got;
}

void in_heap(const struct sample *s, size_t skew, uint8_t mask)
{
    uint8_t *text = block(s->len + skew);
    uint8_t *listing = block(s->room + skew);

    if (s->len)
        memcpy(text + skew, s->text, s->len);
    run(s, text + skew, listing + skew, mask);
    free(text);
    free(listing);
}

/* ---- between pages that cannot be touched */

struct fenced {
    uint8_t *first;
    size_t len;
};

void *pages(size_t bytes, int may)
{
    void *all = mmap(NULL, bytes, may, MAP_PRIVATE | MAP_ANONYMOUS | MAP_NORESERVE, -1, 0);

    if (all == MAP_FAILED)
        give_up("mmap");
    return all;
}

static struct fenced fence(size_t bytes)
{
    size_t page = (size_t)sysconf(_SC_PAGESIZE);
    struct fenced f;

    f.len = (bytes + page - 1) / page * page;
    f.first = (uint8_t *)pages(f.len + 2 * page, PROT_NONE) + page;
    return f;
}

static void protect(const struct fenced *f, int may)
{
    if (mprotect(f->first, f->len, may) != 0)
        give_up("mprotect");
}

/* At the upper end of their pages, or at the lower. */
static void in_pages(const struct sample *s, int upper)
{
    static struct fenced texts, listings;
    uint8_t *text, *listing;

    if (!texts.len) {
        texts = fence(TEXT_ROOM);
        listings = fence(2 * DPB_LISTING_BYTES);
        protect(&listings, PROT_READ | PROT_WRITE);
    }
    text = texts.first + (upper ? texts.len - s->len : 0);
    listing = listings.first + (upper ? listings.len - s->room : 0);
    protect(&texts, PROT_READ | PROT_WRITE);
    if (s->len)
        memcpy(text, s->text, s->len);
    protect(&texts, PROT_READ);
    run(s, text, listing, 0x5A);
}

/* ---- samples */

static void judge(const struct sample *s)
{
    in_heap(s, 0, 0);
    in_heap(s, 0, 0xFF);
    in_pages(s, 1);
    in_pages(s, 0);
}

struct sample sample(const char *label, const struct text *book, uint64_t folds)
{
    struct sample s = {label, book->bytes, book->len, folds, DPB_LISTING_BYTES, 0, ""};

    return s;
}

void listed(const char *label, const struct text *book, uint64_t folds, const char *listing)
{
    struct sample s = sample(label, book, folds);

    s.listing = listing;
    judge(&s);
}

void listed_room(const char *label, const struct text *book, size_t room, const char *listing)
{
    struct sample s = sample(label, book, FOLDS);

    s.room = room;
    s.listing = listing;
    judge(&s);
}

void refused(const char *label, const struct text *book, uint64_t folds, unsigned number, unsigned line)
{
    struct sample s = sample(label, book, folds);

    s.want = REFUSED(number, line);
    judge(&s);
}

void refused_room(const char *label, const struct text *book, uint64_t folds, size_t room)
{
    struct sample s = sample(label, book, folds);

    s.room = room;
    s.want = REFUSED(REFUSED_SHORT_AREA, 0);
    judge(&s);
}
