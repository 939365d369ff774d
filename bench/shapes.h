// The books that are timed.
#ifndef BENCH_SHAPES_H
#define BENCH_SHAPES_H

#include "book.h"

#include <stdbool.h>

struct text {
    size_t length;
    uint8_t bytes[DPB_TEXT_BYTES];
};

struct shape {
    const char *name;
    bool reading; // refused at its last line: the call does nothing but read
    void (*make)(struct text *text);
};

extern const struct shape shapes[];
extern const size_t shape_count;

#endif
