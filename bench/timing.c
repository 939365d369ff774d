#define _POSIX_C_SOURCE 200809L
#include "timing.h"

#include <stdio.h>
#include <stdlib.h>
#include <time.h>

static double now(void) {
    struct timespec t;
    clock_gettime(CLOCK_MONOTONIC, &t);
    return (double)t.tv_sec * 1e6 + (double)t.tv_nsec / 1e3;
}

static int by_value(const void *a, const void *b) {
    double x = *(const double *)a, y = *(const double *)b;
    return (x > y) - (x < y);
}

// The median of `count` values, which are sorted.
static double median(double *values, size_t count) {
    qsort(values, count, sizeof *values, by_value);
    return (values[(count - 1) / 2] + values[count / 2]) / 2;
}

double sample(call *f, const struct text *text, uint64_t folds, size_t batch) {
    static uint8_t listing[DPB_LISTING_BYTES];
    double start = now();
    for (size_t k = 0; k < batch; k++) f(text->bytes, text->length, folds, listing, sizeof listing);
    return (now() - start) / (double)batch;
}

// A batch that takes half a millisecond or more.
static size_t batch_for(call *f, const struct text *text, uint64_t folds) {
    size_t batch = 1;
    while (sample(f, text, folds, batch) * (double)batch < 500) batch *= 2;
    return batch;
}

// The median of SAMPLES samples of each call.
static void measure(call *const calls[], size_t count, const struct text *text, uint64_t folds, double result[]) {
    static double samples[MOST_CALLS][SAMPLES];
    size_t batch[MOST_CALLS];
    for (size_t c = 0; c < count; c++) batch[c] = batch_for(calls[c], text, folds);
    for (int s = -WARM; s < SAMPLES; s++) {
        for (size_t c = 0; c < count; c++) {
            double t = sample(calls[c], text, folds, batch[c]);
            if (s >= 0) samples[c][s] = t;
        }
    }
    for (size_t c = 0; c < count; c++) result[c] = median(samples[c], SAMPLES);
}

static void time_shape(call *const calls[], size_t count, const struct shape *shape, uint64_t folds, agreement *alike) {
    static struct text text;
    double t[MOST_CALLS];
    shape->make(&text);
    alike(shape, &text, folds);
    measure(calls, count, &text, folds, t);
    printf("%s\t%zu\t%d", shape->name, text.length, (int)folds);
    for (size_t c = 0; c < count; c++) printf("\t%.4f", t[c]);
    printf("\n");
}

void time_shapes(call *const calls[], size_t count, agreement *alike) {
    for (size_t s = 0; s < shape_count; s++) {
        if (!shapes[s].reading) time_shape(calls, count, &shapes[s], 0, alike);
        time_shape(calls, count, &shapes[s], DPB_FOLDS, alike);
    }
}
