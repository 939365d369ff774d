// Calls timed by turns.
#ifndef BENCH_TIMING_H
#define BENCH_TIMING_H

#include "shapes.h"

// Few samples, since a run is sixteen programs (bench/places.bash).
enum { SAMPLES = 15, WARM = 2, MOST_CALLS = 3 };

typedef uint64_t call(const uint8_t *, size_t, uint64_t, uint8_t *, size_t);

// Microseconds for one call, over a batch.
double sample(call *f, const struct text *text, uint64_t folds, size_t batch);

// Ends the program, with a word, unless the calls agree on a shape's text.
typedef void agreement(const struct shape *shape, const struct text *text, uint64_t folds);

// Times the calls on each shape, without folds and with all of them, a shape that is only read with all alone. They go by turns, so that what slows the
// machine for a while slows all of them. Prints lines of the shape's name, its bytes, the folds and the median microseconds of each call, parted by tabs.
void time_shapes(call *const calls[], size_t count, agreement *alike);

#endif
