/* Checks: what is counted, and what is compared after a call. */
#include "calls.h"

#include <errno.h>
#include <stdarg.h>
#include <stdio.h>
#include <stdlib.h>
#include <string.h>

unsigned long checks, failures;

void check(int holds, const char *label, const char *format, ...)
{
    va_list rest;

    checks++;
    if (holds)
        return;
    failures++;
    printf("FAILED: %s: ", label);
    va_start(rest, format);
    vprintf(format, rest);
    va_end(rest);
    putchar('\n');
}

void give_up(const char *what)
{
    fprintf(stderr, "calls: %s: %s\n", what, strerror(errno));
    exit(2);
}

void fill(uint8_t *area, size_t len, uint8_t mask)
{
    for (size_t at = 0; at < len; at++)
        area[at] = (uint8_t)((at * 37 + at / 256 + 11) ^ mask);
}

void fill_as_left(const struct sample *s, uint8_t *area, uint8_t mask)
{
    fill(area, s->room, mask);
    if (s->want == 0) {
        memset(area, 0, DPB_LISTING_BYTES);
        memcpy(area, s->listing, strlen(s->listing));
    }
}

void check_result(const struct sample *s, uint64_t came)
{
    check(came == s->want, s->label, "expected %llu (refusal %u, line %u), came %llu (refusal %u, line %u)",
          (unsigned long long)s->want, dpb_refusal(s->want), dpb_line(s->want),
          (unsigned long long)came, dpb_refusal(came), dpb_line(came));
}

/* the first place at which two areas differ; len where there is none */
static size_t difference(const uint8_t *one, const uint8_t *other, size_t len)
{
    size_t at = 0;

    while (at < len && one[at] == other[at])
        at++;
    return at;
}

/* the length of a head line, for a message; 0 where none can be made out */
static int head_length(const uint8_t *area, size_t len)
{
    const uint8_t *end = len ? memchr(area, '\n', len < 60 ? len : 60) : NULL;

    return end && end - area >= 4 && memcmp(area, "DPL ", 4) == 0 ? (int)(end - area) : 0;
}

void check_area(const struct sample *s, const uint8_t *area, uint8_t mask)
{
    uint8_t want[2 * DPB_LISTING_BYTES];
    size_t at;

    if (s->room > sizeof want) {
        errno = ENOSPC;
        give_up(s->label);
    }
    fill_as_left(s, want, mask);
    at = difference(want, area, s->room);
    if (at == s->room)
        check(1, s->label, "no difference");
    else
        check(0, s->label, "byte %zu of %zu of the listing area: expected 0x%02x, came 0x%02x (head lines: expected '%.*s', came '%.*s')",
              at, s->room, want[at], area[at], head_length(want, s->room), (const char *)want,
              head_length(area, s->room), (const char *)area);
}

void check_text(const struct sample *s, const uint8_t *text)
{
    size_t at = difference(s->text, text, s->len);

    if (at == s->len)
        check(1, s->label, "no difference");
    else
        check(0, s->label, "byte %zu of the text: expected 0x%02x as it was, came 0x%02x", at, s->text[at], text[at]);
}
