/* Texts: how books and listings are put together, and those books that several themes use. */
#include "calls.h"

#include <errno.h>
#include <stdarg.h>
#include <stdio.h>
#include <string.h>

_Noreturn static void no_room(void)
{
    errno = ENOSPC;
    give_up("a sample");
}

void add_bytes(struct text *t, const void *bytes, size_t len)
{
    if (len > sizeof t->bytes - t->len)
        no_room();
    memcpy(t->bytes + t->len, bytes, len);
    t->len += len;
}

void add_byte(struct text *t, unsigned byte)
{
    add_bytes(t, &(uint8_t){(uint8_t)byte}, 1);
}

void add(struct text *t, const char *format, ...)
{
    char line[512];
    va_list rest;
    int len;

    va_start(rest, format);
    len = vsnprintf(line, sizeof line, format, rest);
    va_end(rest);
    if (len < 0 || (size_t)len >= sizeof line)
        no_room();
    add_bytes(t, line, (size_t)len);
}

void add_times(struct text *t, size_t times, const char *part)
{
    while (times-- > 0)
        add_bytes(t, part, strlen(part));
}

struct text *empty(void)
{
    static struct text kept[2];
    static int turn;
    struct text *t = &kept[turn ^= 1];

    t->len = 0;
    return t;
}

struct text *marked(void)
{
    struct text *t = empty();

    add(t, MARK);
    return t;
}

struct text *book_of(const char *rules)
{
    struct text *t = marked();

    for (const char *at = rules; *at; at++)
        add_bytes(t, *at == '/' ? "\n" : at, 1);
    if (*rules)
        add(t, "\n");
    return t;
}

void head_line(struct text *listing, unsigned names, unsigned held, unsigned folds, unsigned rounds)
{
    add(listing, LISTED " names=%u held=%u folds=%u rounds=%u\n", names, held, folds, rounds);
}

const char *shown(struct text *listing)
{
    add_byte(listing, 0);
    return (const char *)listing->bytes;
}

/* ---- books at the limits */

void facts(struct text *t, unsigned from, unsigned to)
{
    for (unsigned i = from; i < to; i++)
        add(t, "n%u:\n", i);
}

/* f, then heads of two rules, each over the one before and over itself, then facts up to the last atom. */
void chained_heads(struct text *t)
{
    add(t, "f:\n");
    for (unsigned i = 1; i <= IN_A_ROW; i++) {
        if (i == 1)
            add(t, "h1:f\n");
        else
            add(t, "h%u:h%u\n", i, i - 1);
        add(t, "h%u:h%u\n", i, i);
    }
    for (int i = 0; i < MORE_FACTS; i++)
        add(t, "more%d:\n", i);
}

/* Heads of two rules and as many names between them, all of them long. */
void long_names(struct text *t)
{
    for (unsigned i = 0; i < WITH_NAMES; i++) {
        if (i == 0)
            add(t, LONG("u") ":\n", DIGITS, i);
        else
            add(t, LONG("u") ":" LONG("h") "\n", DIGITS, i, DIGITS, i - 1);
        add(t, LONG("h") ":" LONG("u") "\n", DIGITS, i, DIGITS, i);
        add(t, LONG("h") ":" LONG("h") "\n", DIGITS, i, DIGITS, i);
    }
}

const char *long_listing(unsigned folds, unsigned rounds)
{
    static struct text want;

    want.len = 0;
    head_line(&want, 2 * WITH_NAMES, 2 * WITH_NAMES, folds, rounds);
    for (unsigned i = 0; i < WITH_NAMES; i++)
        add(&want, LONG("u") "\n" LONG("h") "\n", DIGITS, i, DIGITS, i);
    return shown(&want);
}
