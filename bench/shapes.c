// The books that are timed: each is made from fixed numbers, so every run has the same bytes.
#include "shapes.h"

#include <stdarg.h>
#include <stdio.h>
#include <stdlib.h>
#include <string.h>

static void add(struct text *text, const char *format, ...) {
    char line[256];
    va_list values;
    va_start(values, format);
    int length = vsnprintf(line, sizeof line, format, values);
    va_end(values);
    if (length < 0 || (size_t)length >= sizeof line || text->length + (size_t)length > DPB_TEXT_BYTES) {
        fprintf(stderr, "a shape is too long\n");
        exit(2);
    }
    memcpy(text->bytes + text->length, line, (size_t)length);
    text->length += (size_t)length;
}

static void begin(struct text *text) {
    text->length = 0;
    add(text, MARK);
}

// How many heads fit into the atoms: those of two rules in a row after one fact, and those of two rules with a name between each two. How many
// heads of dense bodies there are beside eight facts. The names of the shapes, at the end, say these figures.
enum { IN_A_ROW = (DPB_ATOMS - 1) / 3, WITH_NAMES = DPB_ATOMS / 4, FACTS = 8, DENSE = DPB_NAMES - FACTS };
_Static_assert(DPB_NAMES == 128 && DPB_NAME_BYTES == 32 && DPB_ATOMS == 256 && IN_A_ROW == 85 && WITH_NAMES == 64, "the names of the shapes");

static size_t room(const struct text *text) { return DPB_TEXT_BYTES - text->length; }

// A remark up to the text's last byte, so that the book is as long as a book can be.
static void fill(struct text *text) {
    if (room(text) < 2) return;
    add(text, "#");
    while (room(text) > 1) add(text, "-");
    add(text, "\n");
}

// Numbers that look random and are the same in every run (xorshift).
static uint64_t state;

static size_t below(size_t limit) {
    state ^= state << 13;
    state ^= state >> 7;
    state ^= state << 17;
    return (size_t)(state >> 11) % limit;
}

// Short names: the first 39 have one byte, the others two.
static const char *short_name(size_t a) {
    static const char bytes[] = "abcdefghijklmnopqrstuvwxyz0123456789._-";
    static char names[4][3];
    static size_t turn;
    char *name = names[turn++ % 4];
    snprintf(name, sizeof names[0], a < 39 ? "%c" : "%c%c", bytes[a % 39], bytes[a / 39]);
    return name;
}

static void chain(struct text *text, size_t length) {
    begin(text);
    for (size_t i = 0; i + 1 < length; i++) add(text, "job%zu:job%zu\n", i, i + 1);
    add(text, "job%zu:\n", length - 1);
}

static void chain_100(struct text *text) { chain(text, 100); }
static void chain_all(struct text *text) { chain(text, DPB_NAMES); }

// A dense body for each head, as long as the text has room for: any names, or those below the head, so that all are held.
static void dense(struct text *text, bool layered, bool several) {
    state = 88172645463325252u;
    begin(text);
    for (size_t a = 0; a < FACTS; a++) add(text, "%s:\n", short_name(a));
    for (size_t left = DENSE; left > 0; left--) {
        size_t head = several ? FACTS + below(DENSE / 2) : DPB_NAMES - left;
        size_t most = room(text) / left - 1;
        size_t start = text->length;
        add(text, "%s:", short_name(head));
        while (text->length - start + 3 < most) add(text, "%s ", short_name(layered ? below(head) : below(DPB_NAMES)));
        add(text, "\n");
    }
    fill(text);
}

static void dense_any(struct text *text) { dense(text, false, false); }
static void dense_layered(struct text *text) { dense(text, true, false); }
static void dense_several(struct text *text) { dense(text, true, true); }

// Heads of two rules in a row: all atoms, and two rounds for each head, with or without folds.
static void alternatives(struct text *text) {
    begin(text);
    add(text, "f:\n");
    for (size_t i = 0; i < IN_A_ROW; i++) {
        if (i == 0) {
            add(text, "h0:f\n");
        } else {
            add(text, "h%zu:h%zu\n", i, i - 1);
        }
        add(text, "h%zu:h%zu\n", i, i);
    }
}

// Names of two rules and as many of one, all of full length: all atoms and the longest listing.
static void ladder(struct text *text) {
    begin(text);
    for (size_t i = 0; i < WITH_NAMES; i++) {
        const int w = DPB_NAME_BYTES - 1; // digits after the letter
        if (i == 0) {
            add(text, "u%0*zu:\n", w, i);
        } else {
            add(text, "u%0*zu:h%0*zu\n", w, i, w, i - 1);
        }
        add(text, "h%0*zu:u%0*zu\nh%0*zu:h%0*zu\n", w, i, w, i, w, i, w, i);
    }
}

// Bodies of all names while there is room; each other rule has one of their heads as its body, so that one fold fills its row too.
static void full(struct text *text, size_t singles, size_t ways) {
    begin(text);
    size_t heads = 0;
    while (room(text) > 400 + 7 * (singles + ways)) {
        add(text, "%s:", short_name(heads++));
        for (size_t a = 0; a < DPB_NAMES; a++) add(text, " %s", short_name(a));
        add(text, "\n");
    }
    for (size_t a = heads; a < singles; a++) add(text, "%s:%s\n", short_name(a), short_name(a % heads));
    for (size_t j = 0; j < ways; j++) add(text, "%s:%s\n", short_name(DPB_NAMES - 1), short_name(j % heads));
    fill(text);
}

static void full_names(struct text *text) { full(text, DPB_NAMES, 0); }
static void full_atoms(struct text *text) { full(text, DPB_NAMES - 1, DPB_ATOMS - DPB_NAMES); }

static void everyday(struct text *text) {
    begin(text);
    add(text, "# nightly conformance jobs\n\n");
    add(text, "compiler-built: sources-fetched toolchain-ready\nsources-fetched: mirror-up\nmirror-up:\ntoolchain-ready: image-cached\n");
    add(text, "toolchain-ready: image-built\nimage-built: mirror-up disk-free\nimage-cached:\n");
    add(text, "# one job for each clause\n");
    add(text, "job.6.5.7-shift: compiler-built suite-unpacked\njob.6.7.2.1-bitfield: compiler-built suite-unpacked abi-known\n");
    add(text, "job.6.10.5-macro: preprocessor-only\njob.6.10.5-macro: compiler-built suite-unpacked\nsuite-unpacked: sources-fetched\n");
    add(text, "abi-known: Job.6.5.7-Shift\nreport: job.6.5.7-shift job.6.7.2.1-bitfield job.6.10.5-macro\nnotify: report mail-up\n");
    add(text, "release: notify signed\n");
}

// Reading alone: as many rules as fit, then a line at fault. A colon first is refused under 5 by every release, so that bench/turns can compare them.
static void at_fault(struct text *text) {
    while (room(text) > 2) add(text, " ");
    add(text, ":\n");
}

static void read_short(struct text *text) {
    state = 88172645463325252u;
    begin(text);
    for (size_t left = 240; left > 0; left--) {
        size_t most = (room(text) - 4) / left - 1;
        size_t start = text->length;
        add(text, "%s:", short_name(below(39)));
        while (text->length - start + 2 < most) add(text, "%s ", short_name(below(39)));
        add(text, "\n");
    }
    at_fault(text);
}

static void read_long(struct text *text) {
    state = 88172645463325252u;
    begin(text);
    while (room(text) > (DPB_NAME_BYTES + 1) * 4 + 4) {
        add(text, "conformance-of-clause-%010zu:", below(DPB_NAMES));
        for (size_t k = 0; k < 2; k++) add(text, "conformance-of-clause-%010zu ", below(DPB_NAMES));
        add(text, "conformance-of-clause-%010zu\n", below(DPB_NAMES));
    }
    at_fault(text);
}

// Half the bytes are remarks.
static void read_remarks(struct text *text) {
    state = 88172645463325252u;
    begin(text);
    while (room(text) > 69) {
        add(text, "# what has to be up before it: %s\n", "see the plan");
        add(text, "%s:", short_name(39 + below(DPB_NAMES - 39)));
        for (size_t k = 0; k < 6; k++) add(text, " %s", short_name(39 + below(DPB_NAMES - 39)));
        add(text, "\n");
    }
    at_fault(text);
}

const struct shape shapes[] = {
    {"everyday, 16 rules", false, everyday},
    {"chain of 100", false, chain_100},
    {"chain of 128", false, chain_all},
    {"dense, any names", false, dense_any},
    {"dense, names below", false, dense_layered},
    {"dense, several rules", false, dense_several},
    {"85 heads of two rules", false, alternatives},
    {"ladder of 64", false, ladder},
    {"full rows, 128 atoms", false, full_names},
    {"full rows, 256 atoms", false, full_atoms},
    {"reading: short names", true, read_short},
    {"reading: 32-byte names", true, read_long},
    {"reading: remarks", true, read_remarks},
};
const size_t shape_count = sizeof shapes / sizeof shapes[0];
