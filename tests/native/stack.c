/* The stack: what a call takes of it, and that the bytes which the header states are enough. */
#define _DEFAULT_SOURCE
#include "calls.h"

#include <errno.h>
#include <pthread.h>
#include <signal.h>
#include <stdio.h>
#include <stdlib.h>
#include <string.h>
#include <sys/mman.h>
#include <unistd.h>

/*
 * A stack of the stated bytes and the system's least, above pages that cannot
 * be touched. It lies in a file that is mapped twice, so that it can be painted
 * and looked at from outside while a checker of memory believes it unused.
 */
struct small_stack {
    size_t len;
    uint8_t *base;
    uint8_t *seen;
};

#define FENCE_BYTES (1 << 20)
#define PAINT 0xA5

static struct small_stack small_stack(void)
{
    size_t page = (size_t)sysconf(_SC_PAGESIZE);
    long least = sysconf(_SC_THREAD_STACK_MIN);
    struct small_stack k;
    FILE *file = tmpfile();
    uint8_t *all;

    if (!file || least < 0)
        give_up("a stack");
    k.len = (DPB_STACK_BYTES + (size_t)least + page - 1) / page * page;
    if (ftruncate(fileno(file), (off_t)k.len) != 0)
        give_up("ftruncate");
    all = mmap(NULL, FENCE_BYTES + k.len, PROT_NONE, MAP_PRIVATE | MAP_ANONYMOUS, -1, 0);
    if (all == MAP_FAILED)
        give_up("mmap");
    k.base = mmap(all + FENCE_BYTES, k.len, PROT_READ | PROT_WRITE, MAP_SHARED | MAP_FIXED, fileno(file), 0);
    k.seen = mmap(NULL, k.len, PROT_READ | PROT_WRITE, MAP_SHARED, fileno(file), 0);
    if (k.base == MAP_FAILED || k.seen == MAP_FAILED)
        give_up("mmap");
    fclose(file);
    return k;
}

struct deep_call {
    const struct sample *sample;
    uint8_t *listing;
    uint64_t result;
    int returned;
    void *fault;
    uintptr_t top; /* where the calling function's frame is */
    stack_t handlers;
};

static void *call_deep(void *own)
{
    struct deep_call *d = own;
    stack_t before;

    sigaltstack(&d->handlers, &before);
    d->top = (uintptr_t)__builtin_frame_address(0);
    d->returned = called(d->sample, d->sample->text, d->listing, &d->result, &d->fault);
    sigaltstack(&before, NULL);
    return NULL;
}

static size_t stack_used; /* the most that a call took */

static void on_small_stack(const struct small_stack *k, const struct sample *s)
{
    struct deep_call d = {.sample = s, .listing = block(s->room)};
    pthread_attr_t attributes;
    pthread_t thread;
    size_t lowest = 0;

    d.handlers.ss_size = 1 << 16;
    d.handlers.ss_sp = block(d.handlers.ss_size);
    memset(k->seen, PAINT, k->len);
    fill(d.listing, s->room, 0);
    pthread_attr_init(&attributes);
    errno = pthread_attr_setstack(&attributes, k->base, k->len);
    if (errno)
        give_up("pthread_attr_setstack");
    errno = pthread_create(&thread, &attributes, call_deep, &d);
    if (errno)
        give_up("a thread with a small stack");
    pthread_join(thread, NULL);
    pthread_attr_destroy(&attributes);

    check(d.returned, s->label, "expected an answer on a stack of %zu bytes, came a fault at %p; the stack is %p + %zu",
          k->len, d.fault, (void *)k->base, k->len);
    if (d.returned) {
        check_result(s, d.result);
        check_area(s, d.listing, 0);
    }
    while (lowest < k->len && k->seen[lowest] == PAINT)
        lowest++;
    if (d.top - ((uintptr_t)k->base + lowest) > stack_used)
        stack_used = d.top - ((uintptr_t)k->base + lowest);
    free(d.handlers.ss_sp);
    free(d.listing);
}

size_t stack(void)
{
    static const struct {
        const char *line;
        unsigned number;
    } bad[] = {{"oops", REFUSED_LINE}, {"oops: " LONG_NAME "0", REFUSED_LONG_NAME}, {"oops: a b\r", REFUSED_BARRED_BYTE}};
    struct small_stack k = small_stack();
    struct text *t = marked();
    struct sample s;

    long_names(t);
    s = sample("all names, long ones, on a small stack", t, FOLDS);
    s.listing = long_listing(FOLDS, ROUNDS_FOLDED);
    on_small_stack(&k, &s);
    add(t, LONG("h") ":\n", DIGITS, 0);
    s = sample("one atom too many on a small stack", t, FOLDS);
    s.want = REFUSED(REFUSED_ATOMS, 0);
    on_small_stack(&k, &s);
    for (size_t i = 0, good = t->len; i < COUNT(bad); i++) {
        t->len = good;
        add(t, "%s\n", bad[i].line);
        /* the mark, three rules a head, the one above, and this line */
        s = sample("a line at fault on a small stack", t, FOLDS);
        s.want = REFUSED(bad[i].number, 3 * WITH_NAMES + 3);
        on_small_stack(&k, &s);
    }
    t = marked();
    add_times(t, (TEXT_BYTES - MARK_BYTES) / 2, "#\n");
    add_times(t, (TEXT_BYTES - MARK_BYTES) % 2, "\n");
    s = sample("a text of remarks, as long as can be, on a small stack", t, 0);
    s.listing = "DPL 0001 names=0 held=0 folds=0 rounds=1\n";
    on_small_stack(&k, &s);
    t = book_of(PRINTED);
    s = sample("one fold too many on a small stack", t, FOLDS + 1);
    s.want = REFUSED(REFUSED_FOLDS, 0);
    on_small_stack(&k, &s);

    check(stack_used <= DPB_STACK_BYTES, "stack", "expected at most %d bytes, came %zu", DPB_STACK_BYTES, stack_used);
    munmap(k.base - FENCE_BYTES, FENCE_BYTES + k.len);
    munmap(k.seen, k.len);
    return stack_used;
}
